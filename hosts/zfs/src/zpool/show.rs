//! `zpool list`, `get`, `set`, `status` and `history`.

use super::pools_of;
use super::property::PoolProperty;
use super::repeat::Repeat;
use super::vdev::{self, Vdev};
use crate::call::Call;
use crate::failure::{Action, Failure, Outcome, Reason, Trying};
use crate::host::Host;
use crate::name;
use crate::options::Options;
use crate::output::{self, Column, Table};
use crate::property::listed;
use crate::setting::{settings, Setting};
use crate::size;
use crate::usage::{Usage, ZpoolCommand};

const GET: Usage = Usage::Zpool(ZpoolCommand::Get);
const LIST: Usage = Usage::Zpool(ZpoolCommand::List);
/// The fewest letters of a name before vdevs.
const NAME_LEAST: usize = 9;
const COLUMNS: &str = "name,size,allocated,free,checkpoint,expandsize,fragmentation,capacity,dedupratio,health,altroot";

fn properties(words: &str, usage: Usage) -> Outcome<Vec<PoolProperty>> {
    let bad = |reason: &str| Failure::Usage(usage, format!("bad property list: {reason}"));
    let named = |word: &str| PoolProperty::named(word).ok_or_else(|| bad(&format!("invalid property '{word}'")));
    listed(words).map_err(bad)?.into_iter().map(named).collect()
}

pub fn list(call: &mut Call, words: &[String]) -> Outcome {
    let options = call.options(words, ":gHLo:pPT:v", LIST)?;
    check_time(&options, LIST)?;
    let columns = properties(options.argument('o').unwrap_or(COLUMNS), LIST)?;
    let mut operands = options.operands.clone();
    let repeat = Repeat::take(&mut operands, LIST)?;
    let (is_scripted, is_exact) = (options.has('H'), options.has('p'));
    let has_vdevs = options.has('v') && options.argument('o').is_none();
    repeat.run(call, |call, turn| {
        let pools = pools_of(call, &operands);
        if pools.is_empty() {
            if operands.is_empty() && !is_scripted {
                call.output.line("no pools available");
            }
            return Ok(());
        }
        let mut rows = Vec::new();
        for pool in pools {
            let columns = columns.clone();
            let cells = pool.run(move |host| columns.iter().map(|it| it.value(host, is_exact).map(|(text, _)| text)).collect::<Outcome<Vec<_>>>())??;
            rows.push(cells);
            if has_vdevs {
                rows.extend(pool.run(move |host| vdev_rows(host, is_scripted, is_exact))??);
            }
        }
        let mut columns: Vec<Column> = columns.iter().map(PoolProperty::column).collect();
        columns[0].least = if has_vdevs { NAME_LEAST } else { columns[0].least };
        let text = Table { columns, rows }.text(is_scripted);
        let header = text.find('\n').map_or(0, |end| end + 1);
        call.output.text(if turn > 0 && !is_scripted { &text[header..] } else { &text });
        Ok(())
    })
}

/// The lines of a pool's vdevs: as those of pools, without the last column.
fn vdev_rows(host: &mut Host, is_scripted: bool, is_exact: bool) -> Outcome<Vec<Vec<String>>> {
    let (allocated, _) = PoolProperty::Allocated.value(host, true)?;
    let sized = |number: u64| if is_exact { number.to_string() } else { size::plain(number) };
    let percent = if is_exact { "" } else { "%" };
    let row = |it: vdev::Listed| {
        let name = if is_scripted { format!("\t{}", it.name.trim_start()) } else { it.name };
        let of_top = |text: String| it.allocated.map_or_else(|| "-".into(), |_| text);
        let used = it.allocated.unwrap_or(0);
        let size = if it.size == 0 { "-".into() } else { sized(it.size) };
        let none = || "-".to_owned();
        let share = shown_share(used, it.size, is_exact);
        let state = it.state.unwrap_or("-").to_owned();
        let (used, free) = (of_top(sized(used)), of_top(sized(it.size.saturating_sub(used))));
        vec![name, size, used, free, none(), none(), of_top(format!("0{percent}")), of_top(share), none(), state]
    };
    Ok(vdev::listed(&host.facts.vdevs, allocated.parse().unwrap_or(0)).into_iter().map(row).collect())
}

/// How full a vdev is, in hundredths of a percent where that is little.
fn shown_share(used: u64, size: u64, is_exact: bool) -> String {
    let parts = (u128::from(used) * 10_000 / u128::from(size.max(1))) as u64;
    match parts {
        _ if is_exact => (parts / 100).to_string(),
        0..1000 => format!("{:.2}%", parts as f64 / 100.0),
        1000..10_000 => format!("{:.1}%", parts as f64 / 100.0),
        _ => format!("{:.0}%", parts as f64 / 100.0),
    }
}

/// A time is told as a date or a number of seconds.
pub fn check_time(options: &Options, usage: Usage) -> Outcome {
    let is_known = options.arguments('T').all(|word| matches!(word, "d" | "u"));
    if is_known { Ok(()) } else { Err(Failure::Usage(usage, String::new())) }
}

/// A column of `get`.
#[derive(Clone, Copy, Debug, PartialEq, Eq)]
enum Field {
    Name,
    Property,
    Value,
    Source,
}

impl Field {
    const ALL: [Field; 4] = [Field::Name, Field::Property, Field::Value, Field::Source];

    fn header(self) -> &'static str {
        match self {
            Field::Name => "NAME",
            Field::Property => "PROPERTY",
            Field::Value => "VALUE",
            Field::Source => "SOURCE",
        }
    }

    /// The fewest letters of its column, with what is asked for.
    fn least_width(self, wanted: &[PoolProperty]) -> usize {
        match self {
            Field::Property => wanted.iter().map(|it| it.to_string().len()).max().unwrap_or(0),
            Field::Value => wanted.iter().map(PoolProperty::least_width).max().unwrap_or(0),
            _ => 0,
        }
    }

    fn named(word: &str) -> Outcome<Field> {
        let found = Field::ALL.into_iter().find(|field| field.header().to_ascii_lowercase() == word);
        found.ok_or_else(|| Failure::Usage(GET, format!("invalid column name '{word}'")))
    }
}

pub fn get(call: &mut Call, words: &[String]) -> Outcome {
    let options = call.options(words, ":Hpo:", GET)?;
    let [first, names @ ..] = &options.operands[..] else { return Err(Failure::Usage(GET, "missing property argument".into())) };
    let wanted = if first == "all" { PoolProperty::all() } else { properties(first, GET)? };
    let fields = match options.argument('o') {
        None | Some("all") => Field::ALL.to_vec(),
        Some(words) => words.split(',').map(Field::named).collect::<Outcome<_>>()?,
    };
    let mut rows = Vec::new();
    for pool in pools_of(call, names) {
        let (wanted, fields, is_exact) = (wanted.clone(), fields.clone(), options.has('p'));
        let more = pool.run(move |host| {
            let row = |property: &PoolProperty| {
                let (text, source) = property.value(host, is_exact)?;
                let cell = |field: &Field| match field {
                    Field::Name => host.name.clone(),
                    Field::Property => property.to_string(),
                    Field::Value => text.clone(),
                    Field::Source => source.to_string(),
                };
                Ok(fields.iter().map(cell).collect())
            };
            wanted.iter().filter(|it| !it.is_unknown()).map(row).collect::<Outcome<Vec<Vec<String>>>>()
        })??;
        rows.extend(more);
    }
    if !rows.is_empty() {
        let columns = fields.iter().map(|field| Column { least: field.least_width(&wanted), ..Column::of_words(field.header()) }).collect();
        call.output.text(&Table { columns, rows }.text(options.has('H')));
    }
    Ok(())
}

pub fn set(call: &mut Call, words: &[String]) -> Outcome {
    let usage = Usage::Zpool(ZpoolCommand::Set);
    let reason = |reason: &str| Err(Failure::Usage(usage, reason.to_owned()));
    let (pair, name) = match words {
        [] => return reason("missing property=value argument"),
        [one, ..] if one.len() > 1 && one.starts_with('-') => {
            return reason(&format!("invalid option '{}'", one.chars().nth(1).unwrap_or_default()));
        }
        [_] => return reason("missing pool name"),
        [pair, name] => (pair, name),
        _ => return reason("too many pool names"),
    };
    if !pair.contains('=') {
        return reason("missing value in property=value argument");
    }
    let pool = call.pool(name)?;
    let action = || Action::SetProperty(name.clone());
    for Setting { property, value } in settings([pair.as_str()].into_iter())? {
        let known = PoolProperty::named(&property).ok_or(Reason::NoProperty(property)).trying(action)?;
        let value = known.checked(&value, false).trying(action)?;
        let refused = action();
        pool.run(move |host| {
            if known == PoolProperty::BootFs && !value.is_empty() {
                check_boot(host, &value).map_err(|reason| Failure::Cannot(refused, reason))?;
            }
            // What is empty is what is not set.
            host.facts.properties.retain(|name, _| *name != known.to_string());
            host.facts.properties.extend(Some((known.to_string(), value)).filter(|(_, value)| !value.is_empty()));
            Ok(())
        })??;
    }
    call.log(&pool);
    Ok(())
}

/// A pool boots from a file system of its own.
fn check_boot(host: &Host, name: &str) -> Result<(), Reason> {
    match host.tree.whole(name) {
        _ if name::pool(name) != host.name => Err(Reason::Text(format!("'{name}' is an invalid name"))),
        None => Err(Reason::Text("no such pool or dataset".into())),
        Some(_) => Ok(()),
    }
}

pub fn status(call: &mut Call, words: &[String]) -> Outcome {
    let options = call.options(words, "c:DegiLpPstT:vx", Usage::Zpool(ZpoolCommand::Status))?;
    check_time(&options, Usage::Zpool(ZpoolCommand::Status))?;
    let mut operands = options.operands.clone();
    let repeat = Repeat::take(&mut operands, Usage::Zpool(ZpoolCommand::Status))?;
    repeat.run(call, |call, _| tell_status(call, &operands, options.has('x')))
}

fn tell_status(call: &mut Call, operands: &[String], is_brief: bool) -> Outcome {
    let pools = pools_of(call, operands);
    if pools.is_empty() {
        if operands.is_empty() {
            call.output.error("no pools available");
        }
        return Ok(());
    }
    if is_brief {
        match operands.first() {
            Some(name) => call.output.line(&format!("pool '{name}' is healthy")),
            None => call.output.line("all pools are healthy"),
        }
        return Ok(());
    }
    for (place, pool) in pools.iter().enumerate() {
        let (vdevs, scrubbed) = pool.run(|host| (host.facts.vdevs.clone(), host.scrubbed))?;
        if place > 0 {
            call.output.line("");
        }
        call.output.text(&status_text(&pool.name, &vdevs, scrubbed));
    }
    Ok(())
}

/// A pool that was never scrubbed has no line `scan:`, as in OpenZFS 2.1.
fn status_text(name: &str, vdevs: &[Vdev], scrubbed: Option<i64>) -> String {
    let counted = |line: &str, state: &str, width: usize| match state {
        "AVAIL" => format!("\t{line:<width$}  {state:<8}\n"),
        _ => format!("\t{line:<width$}  {state:<8} {:>5} {:>5} {:>5}\n", 0, 0, 0),
    };
    let layout = vdev::layout(name, vdevs, counted);
    let width = layout.lines().next().and_then(|line| line.find("  ONLINE")).map_or(10, |place| place - 1);
    let scan = scrubbed.map(|time| format!("  scan: scrub repaired 0B in 00:00:00 with 0 errors on {}\n", output::exact_date(time)));
    let head = format!("  pool: {name}\n state: ONLINE\n{}config:\n\n", scan.unwrap_or_default());
    format!("{head}\t{:<width$}  STATE     READ WRITE CKSUM\n{layout}\nerrors: No known data errors\n", "NAME")
}

pub fn history(call: &mut Call, words: &[String]) -> Outcome {
    let options = call.options(words, "il", Usage::Zpool(ZpoolCommand::History))?;
    let pools = pools_of(call, &options.operands);
    if pools.is_empty() && options.operands.is_empty() {
        call.output.error("no pools available");
    }
    for pool in pools {
        let lines = pool.run(|host| host.history.join("\n"))?;
        call.output.line(&format!("History for '{}':\n{lines}\n", pool.name));
    }
    Ok(())
}
