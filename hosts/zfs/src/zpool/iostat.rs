//! `zpool iostat`: how full pools are. Nothing is read from a device or written to one, so all else is 0.

use super::property::PoolProperty;
use super::repeat::Repeat;
use super::show::check_time;
use super::vdev;
use crate::call::Call;
use crate::failure::{Failure, Outcome};
use crate::size;
use crate::usage::{Usage, ZpoolCommand};
use crate::world::PoolThread;
use std::sync::Arc;

const USAGE: Usage = Usage::Zpool(ZpoolCommand::Iostat);

/// The fewest letters of a name, and the columns behind it.
const NAME_LEAST: usize = 10;
const HEADERS: &str = "  alloc   free   read  write   read  write";
const RULE: &str = "  -----  -----  -----  -----  -----  -----";

/// How a table looks.
#[derive(Clone, Copy)]
struct Form {
    is_scripted: bool,
    is_exact: bool,
    is_verbose: bool,
}

/// A line: a name with its indentation, what is allocated and what is free.
struct Line {
    name: String,
    space: [String; 2],
}

pub fn run(call: &mut Call, words: &[String]) -> Outcome {
    let options = call.options(words, "c:gLPT:vyhplqrwnH", USAGE)?;
    check_time(&options, USAGE)?;
    let mut operands = options.operands.clone();
    let repeat = Repeat::take(&mut operands, USAGE)?;
    if let Some(letter) = ['c', 'l', 'q', 'r', 'w'].into_iter().find(|letter| options.has(*letter)) {
        return Err(Failure::Told(format!("zpool iostat: -{letter} is not supported here: a pool in memory has no devices")));
    }
    let form = Form { is_scripted: options.has('H'), is_exact: options.has('p'), is_verbose: options.has('v') };
    let unknown = |_| Failure::Told("Unable to parse pools/vdevs list.".into());
    let named = operands.iter().map(|name| call.pool(name)).collect::<Outcome<Vec<_>>>().map_err(unknown)?;
    let pools = if operands.is_empty() { call.world.pools() } else { named };
    if pools.is_empty() {
        return Err(Failure::Told("no pools available".into()));
    }
    repeat.run(call, |call, turn| {
        let text = table(&pools, form, turn == 0)?;
        call.output.text(&text);
        Ok(())
    })
}

fn lines_of(pool: &PoolThread, form: Form) -> Outcome<Vec<Line>> {
    pool.run(move |host| {
        let mut cell = |property: PoolProperty| property.value(host, form.is_exact).map(|(text, _)| text);
        let space = [cell(PoolProperty::Allocated)?, cell(PoolProperty::Free)?];
        let none = || ["-".to_owned(), "-".to_owned()];
        let tree = vdev::layout(&host.name, &host.facts.vdevs, |line, _, _| format!("{line}\n"));
        let mut lines: Vec<Line> = tree.lines().map(|name| Line { name: name.trim_matches('\t').to_owned(), space: none() }).collect();
        lines.truncate(if form.is_verbose { lines.len() } else { 1 });
        lines[0].space = space;
        let (allocated, _) = PoolProperty::Allocated.value(host, true)?;
        let sized = |number: u64| if form.is_exact { number.to_string() } else { size::plain(number) };
        for (line, of) in lines[1..].iter_mut().zip(vdev::listed(&host.facts.vdevs, allocated.parse().unwrap_or(0))) {
            if let Some(used) = of.allocated {
                line.space = [sized(used), sized(of.size.saturating_sub(used))];
            }
        }
        Ok(lines)
    })?
}

fn table(pools: &[Arc<PoolThread>], form: Form, has_header: bool) -> Outcome<String> {
    let groups = pools.iter().map(|pool| lines_of(pool, form)).collect::<Outcome<Vec<_>>>()?;
    if form.is_scripted {
        let scripted = |line: &Line| format!("{}\t{}\t0\t0\t0\t0\n", line.name.trim_start(), line.space.join("\t"));
        return Ok(groups.iter().flatten().map(scripted).collect());
    }
    let width = groups.iter().flatten().map(|line| line.name.len()).chain([NAME_LEAST]).max().unwrap_or(NAME_LEAST);
    let rule = format!("{}{RULE}\n", "-".repeat(width));
    let mut text = String::new();
    if has_header || form.is_verbose {
        text += &format!("{:width$}    capacity     operations     bandwidth \n{:width$}{HEADERS}\n{rule}", "", "pool");
    }
    for lines in &groups {
        text.extend(lines.iter().map(|Line { name, space: [used, free] }| format!("{name:width$}  {used:>5}  {free:>5}{}\n", "      0".repeat(4))));
        text.extend(Some(&rule[..]).filter(|_| form.is_verbose));
    }
    text.extend(Some(&rule[..]).filter(|_| groups.len() > 1 && !form.is_verbose));
    Ok(text)
}
