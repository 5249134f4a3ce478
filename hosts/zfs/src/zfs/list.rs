//! `zfs list`.

use super::walk::{order, Walk};
use crate::call::Call;
use crate::dataset::Dataset;
use crate::failure::{Failure, Outcome};
use crate::host::Host;
use crate::options::Options;
use crate::output::{Column, Table};
use crate::property::{listed, Form, Kinds, Native, Property};
use crate::reading::shown;
use crate::usage::{Usage, ZfsCommand};
use std::cmp::Ordering;

const USAGE: Usage = Usage::Zfs(ZfsCommand::List);
const SPACE: &str = "name,available,used,usedbysnapshots,usedbydataset,usedbyrefreservation,usedbychildren";

/// A column to sort by.
#[derive(Clone)]
struct SortColumn {
    property: Property,
    is_reverse: bool,
}

/// A value to sort by. Where there is none, it comes last.
#[derive(Clone, PartialEq, Eq, PartialOrd, Ord)]
enum SortValue {
    Number(u64),
    Text(String),
    None,
}

struct Row {
    cells: Vec<String>,
    keys: Vec<SortValue>,
    order: (String, u8, u64, String),
}

/// What a listing shows.
#[derive(Clone)]
struct Listing {
    walk: Walk,
    columns: Vec<Property>,
    sort: Vec<SortColumn>,
    is_exact: bool,
    is_scripted: bool,
}

pub fn run(call: &mut Call, words: &[String]) -> Outcome {
    let options = call.options(words, "Hprd:o:t:s:S:", USAGE)?;
    let listing = Listing::read(&options)?;
    let starts = listing.walk.starts(call, &options.operands);
    let mut rows = Vec::new();
    for start in starts {
        let listing = listing.clone();
        rows.extend(start.pool.run(move |host| listing.rows(host, &start.names))?);
    }
    if rows.is_empty() {
        if call.status == crate::protocol::Status::Done && !listing.is_scripted {
            call.output.error("no datasets available");
        }
        return Ok(());
    }
    if !listing.sort.is_empty() {
        rows.sort_by(|one, other| listing.compare(one, other));
    }
    let rows = rows.into_iter().map(|row| row.cells).collect();
    let table = Table { columns: listing.columns.iter().map(column).collect(), rows };
    call.output.text(&table.text(listing.is_scripted));
    Ok(())
}

fn column(property: &Property) -> Column {
    Column { header: property.header(), is_right_aligned: property.is_right_aligned(), least: property.least_width() }
}

/// Properties by their names with commas between them.
pub fn properties(words: &str, usage: Usage) -> Outcome<Vec<Property>> {
    let bad = |reason| Failure::Usage(usage, format!("bad property list: {reason}"));
    listed(words).map_err(bad)?.into_iter().map(|word| property(word, usage)).collect()
}

pub fn property(word: &str, usage: Usage) -> Outcome<Property> {
    Property::named(word).ok_or_else(|| Failure::Usage(usage, format!("bad property list: invalid property '{word}'")))
}

impl Listing {
    fn read(options: &Options) -> Outcome<Listing> {
        let mut walk = Walk { kinds: Kinds::FV, is_recursive: options.has('r') || options.operands.is_empty(), depth: None };
        if !options.operands.is_empty() && options.argument('t').is_none() {
            walk.kinds = if options.has('r') || options.has('d') { Kinds::FV } else { Kinds::FVS };
        }
        if let Some(depth) = options.argument('d') {
            walk.is_recursive = true;
            walk.depth = Some(Walk::depth_of(depth, USAGE)?);
        }
        if let Some(words) = options.argument('t') {
            let kinds = Walk::kinds_of(words, USAGE)?;
            walk.kinds = kinds;
            if (kinds == Kinds::SNAPSHOT || kinds == Kinds::BOOKMARK) && !walk.is_recursive {
                (walk.is_recursive, walk.depth) = (true, Some(1));
            }
        }
        let columns = match options.argument('o') {
            Some("space") => properties(SPACE, USAGE)?,
            Some("all") => {
                let others = Native::ALL.iter().copied().filter(|it| !it.is_hidden());
                [Native::Name].into_iter().chain(others).map(Property::Native).collect()
            }
            Some(words) => properties(words, USAGE)?,
            None => properties("name,used,available,referenced,mountpoint", USAGE)?,
        };
        let sorted = options.found.iter().filter(|found| matches!(found.letter, 's' | 'S'));
        let sort = sorted.map(|it| SortColumn::read(&it.argument, it.letter == 'S')).collect::<Outcome<_>>()?;
        Ok(Listing { walk, columns, sort, is_exact: options.has('p'), is_scripted: options.has('H') })
    }

    fn rows(&self, host: &mut Host, names: &[String]) -> Vec<Row> {
        let datasets = self.walk.datasets(host, names);
        datasets.iter().map(|dataset| self.row(host, dataset)).collect()
    }

    fn row(&self, host: &mut Host, dataset: &Dataset) -> Row {
        let cell = |property: &Property| host.value(dataset, property).map_or_else(|| "-".into(), |value| shown(property, &value, self.is_exact));
        let cells = self.columns.iter().map(cell).collect();
        let keys = self.sort.iter().map(|it| sort_value(host, dataset, &it.property)).collect();
        let order = if self.sort.is_empty() { Default::default() } else { order(dataset) };
        Row { cells, keys, order }
    }

    fn compare(&self, one: &Row, other: &Row) -> Ordering {
        for (place, column) in self.sort.iter().enumerate() {
            let (left, right) = (&one.keys[place], &other.keys[place]);
            let order = left.cmp(right);
            if order != Ordering::Equal {
                return if column.is_reverse { order.reverse() } else { order };
            }
        }
        one.order.cmp(&other.order)
    }
}

impl SortColumn {
    fn read(word: &str, is_reverse: bool) -> Outcome<SortColumn> {
        let property = Property::named(word).ok_or_else(|| Failure::Usage(USAGE, format!("invalid property '{word}'")))?;
        Ok(SortColumn { property, is_reverse })
    }
}

fn sort_value(host: &mut Host, dataset: &Dataset, property: &Property) -> SortValue {
    let Some(value) = host.value(dataset, property) else { return SortValue::None };
    let is_number = matches!(property, Property::Native(native) if native.form() != Form::Text && native.form() != Form::Choice);
    match value.text.parse() {
        Ok(number) if is_number || matches!(property, Property::WrittenSince(_)) => SortValue::Number(number),
        _ if value.text == "-" => SortValue::None,
        _ => SortValue::Text(value.text),
    }
}
