//! `zfs get`.

use super::list::properties;
use super::walk::Walk;
use crate::call::Call;
use crate::dataset::{Dataset, Kind};
use crate::failure::{Failure, Outcome};
use crate::host::Host;
use crate::options::{Found, Options};
use crate::output::{Column, Table};
use crate::property::{Kinds, Native, Property};
use crate::reading::shown;
use crate::usage::{Usage, ZfsCommand};

const USAGE: Usage = Usage::Zfs(ZfsCommand::Get);
const LETTERS: &str = ":Hprd:o:t:s:";

/// A column of the answer.
#[derive(Clone, Copy, Debug, PartialEq, Eq)]
enum Field {
    Name,
    Property,
    Value,
    Received,
    Source,
}

impl Field {
    const DEFAULT: [Field; 4] = [Field::Name, Field::Property, Field::Value, Field::Source];
    const ALL: [Field; 5] = [Field::Name, Field::Property, Field::Value, Field::Received, Field::Source];

    fn named(word: &str) -> Outcome<Field> {
        Field::ALL
            .into_iter()
            .find(|field| field.header().to_ascii_lowercase() == word)
            .ok_or_else(|| Failure::Usage(USAGE, format!("invalid column name '{word}'")))
    }

    fn header(self) -> &'static str {
        match self {
            Field::Name => "NAME",
            Field::Property => "PROPERTY",
            Field::Value => "VALUE",
            Field::Received => "RECEIVED",
            Field::Source => "SOURCE",
        }
    }
}

/// What is asked of each dataset.
#[derive(Clone)]
enum Wanted {
    All,
    Properties(Vec<Property>),
}

#[derive(Clone)]
struct Query {
    walk: Walk,
    wanted: Wanted,
    fields: Vec<Field>,
    /// The words of sources, all where it is none.
    sources: Option<Vec<String>>,
    is_exact: bool,
}

const SOURCES: [&str; 6] = ["local", "default", "inherited", "received", "temporary", "none"];

pub fn run(call: &mut Call, words: &[String]) -> Outcome {
    let options = Options::read(words, LETTERS, &[], call.request.is_posix);
    let query = Query::read(&options)?;
    let mut rows = Vec::new();
    for start in query.walk.starts(call, &options.operands[1..]) {
        let query = query.clone();
        rows.extend(start.pool.run(move |host| query.rows(host, &start.names))?);
    }
    if rows.is_empty() {
        return Ok(());
    }
    let columns = query.fields.iter().map(|field| Column { least: query.least_width(*field), ..Column::of_words(field.header()) }).collect();
    call.output.text(&Table { columns, rows }.text(options.has('H')));
    Ok(())
}

/// The columns of `-o`.
fn fields(words: &str) -> Outcome<Vec<Field>> {
    let fields = words.split(',').map(Field::named).collect::<Outcome<Vec<Field>>>()?;
    if fields.len() > Field::ALL.len() {
        return Err(Failure::Usage(USAGE, "too many fields given to -o option".into()));
    }
    Ok(fields)
}

impl Query {
    /// Reads the options, each as it comes, and then what stands behind them.
    fn read(options: &Options) -> Outcome<Query> {
        let walk = Walk { kinds: Kinds::ALL, is_recursive: options.has('r'), depth: None };
        let wanted = Wanted::Properties(Vec::new());
        let mut query = Query { walk, wanted, fields: Field::DEFAULT.to_vec(), sources: None, is_exact: options.has('p') };
        options.found.iter().try_for_each(|found| query.take(found))?;
        options.check(LETTERS, USAGE)?;
        let (first, names) = options.operands.split_first().ok_or_else(|| Failure::Usage(USAGE, "missing property argument".into()))?;
        let is_of_parts = query.walk.kinds == Kinds::SNAPSHOT || query.walk.kinds == Kinds::BOOKMARK;
        if names.is_empty() {
            query.walk.is_recursive = true;
        } else if is_of_parts && !query.walk.is_recursive {
            (query.walk.is_recursive, query.walk.depth) = (true, Some(1));
        }
        query.wanted = if first == "all" { Wanted::All } else { Wanted::Properties(properties(first, USAGE)?) };
        Ok(query)
    }

    /// The fewest letters of a column: of the names and of the values of what is asked for.
    fn least_width(&self, field: Field) -> usize {
        let natives: Vec<Property> = Native::ALL.iter().filter(|it| !it.is_hidden()).map(|it| Property::Native(*it)).collect();
        let wanted = match &self.wanted {
            Wanted::All => &natives,
            Wanted::Properties(properties) => properties,
        };
        let widest = |width: fn(&Property) -> usize| wanted.iter().map(width).max().unwrap_or(0);
        match field {
            Field::Property => widest(|property| property.to_string().len()),
            Field::Value => widest(Property::least_width),
            _ => 0,
        }
    }

    fn take(&mut self, found: &Found) -> Outcome {
        let words = found.argument.as_str();
        match found.letter {
            'd' => (self.walk.is_recursive, self.walk.depth) = (true, Some(Walk::depth_of(words, USAGE)?)),
            't' => self.walk.kinds = Walk::kinds_of(words, USAGE)?,
            'o' if words == "all" => self.fields = Field::ALL.to_vec(),
            'o' => self.fields = fields(words)?,
            's' => {
                if let Some(word) = words.split(',').find(|word| !SOURCES.contains(word)) {
                    return Err(Failure::Usage(USAGE, format!("invalid source '{word}'")));
                }
                self.sources = Some(words.split(',').map(str::to_owned).collect());
            }
            _ => {}
        }
        Ok(())
    }

    fn rows(&self, host: &mut Host, names: &[String]) -> Vec<Vec<String>> {
        let datasets = self.walk.datasets(host, names);
        datasets.iter().flat_map(|dataset| self.dataset_rows(host, dataset)).collect()
    }

    fn dataset_rows(&self, host: &mut Host, dataset: &Dataset) -> Vec<Vec<String>> {
        match &self.wanted {
            Wanted::Properties(properties) => properties.iter().filter_map(|it| self.row(host, dataset, it, false)).collect(),
            Wanted::All => all(host, dataset).iter().filter_map(|it| self.row(host, dataset, it, true)).collect(),
        }
    }

    /// A row, or none where its source isn't asked for. Of `all`, what a dataset hasn't is left out.
    fn row(&self, host: &mut Host, dataset: &Dataset, property: &Property, is_of_all: bool) -> Option<Vec<String>> {
        let value = host.value(dataset, property);
        let (text, source) = match &value {
            Some(value) if is_of_all && value.text == "-" && is_left_out(property) => return None,
            Some(value) => (shown(property, value, self.is_exact), value.source.clone()),
            None if is_of_all => return None,
            None => ("-".into(), crate::property::Source::None),
        };
        if self.sources.as_ref().is_some_and(|sources| !sources.iter().any(|word| word == source.word())) {
            return None;
        }
        let cell = |field: &Field| match field {
            Field::Name => dataset.name.clone(),
            Field::Property => property.to_string(),
            Field::Value => text.clone(),
            Field::Received => shown(property, &host.received(dataset, property), self.is_exact),
            Field::Source => source.to_string(),
        };
        Some(self.fields.iter().map(cell).collect())
    }
}

/// What `all` leaves out where there is no value.
fn is_left_out(property: &Property) -> bool {
    match property {
        Property::Native(native) => {
            matches!(native, Native::ReceiveResumeToken | Native::VolSize | Native::VolBlockSize | Native::Origin | Native::EncryptionRoot)
                || matches!(native, Native::RedactSnaps | Native::KeyStatus | Native::Pbkdf2Iters | Native::Clones)
                || matches!(native, Native::Referenced | Native::LogicalReferenced | Native::CompressRatio)
        }
        _ => true,
    }
}

fn all(host: &Host, dataset: &Dataset) -> Vec<Property> {
    let natives = Native::ALL.iter().filter(|native| !native.is_hidden()).copied().map(Property::Native);
    let users = if dataset.kind() == Kind::Bookmark { Vec::new() } else { host.user_properties(dataset) };
    natives.chain(users.into_iter().map(Property::User)).collect()
}
