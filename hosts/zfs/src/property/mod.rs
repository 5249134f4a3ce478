//! Properties: the native ones, those of users, and `written@SNAPSHOT` or `written#BOOKMARK`.

pub mod native;
pub mod value;

pub use native::{Attribute, Form, Kinds, Native};

use std::fmt;

/// What a column or a `get` asks for.
#[derive(Clone, Debug, PartialEq, Eq)]
pub enum Property {
    Native(Native),
    /// A property of a user's, which has a colon in its name.
    User(String),
    /// Space written since a snapshot: `written@SNAPSHOT` or a whole name, or since a bookmark.
    WrittenSince(String),
    /// A quota or a use of a user, a group or a project, which nothing here has.
    Account(String),
}

/// The names before `@` of properties of users, groups and projects.
const ACCOUNTS: [&str; 12] = [
    "userused", "userquota", "groupused", "groupquota", "userobjused", "userobjquota", "groupobjused", "groupobjquota", "projectused",
    "projectquota", "projectobjused", "projectobjquota",
];

impl Property {
    /// By its name; none where no property has it.
    pub fn named(word: &str) -> Option<Property> {
        if let Some(native) = Native::named(word) {
            return Some(Property::Native(native));
        }
        if let Some(since) = word.strip_prefix("written").filter(|since| since.starts_with(['@', '#']) && since.len() > 1) {
            return Some(Property::WrittenSince(since.to_owned()));
        }
        if word.split_once('@').is_some_and(|(account, who)| ACCOUNTS.contains(&account) && !who.is_empty()) {
            return Some(Property::Account(word.to_owned()));
        }
        value::is_user_name(word).then(|| Property::User(word.to_owned()))
    }

    pub fn header(&self) -> String {
        match self {
            Property::Native(native) => native.header().to_owned(),
            other => other.to_string().to_uppercase(),
        }
    }

    /// The fewest letters of a column of it.
    pub fn least_width(&self) -> usize {
        match self {
            Property::Native(native) => native.least_width(),
            other => other.to_string().len(),
        }
    }

    pub fn is_right_aligned(&self) -> bool {
        match self {
            Property::Native(native) => native.is_right_aligned(),
            Property::User(_) => false,
            Property::WrittenSince(_) | Property::Account(_) => true,
        }
    }
}

/// The words of a list with commas between them. One may stand behind the last.
pub fn listed(words: &str) -> Result<Vec<&str>, &'static str> {
    let found: Vec<&str> = words.split_terminator(',').collect();
    match found {
        found if found.is_empty() => Err("no properties specified"),
        found if found.contains(&"") => Err("empty property name"),
        found => Ok(found),
    }
}

impl fmt::Display for Property {
    fn fmt(&self, f: &mut fmt::Formatter<'_>) -> fmt::Result {
        match self {
            Property::Native(native) => native.fmt(f),
            Property::User(name) | Property::Account(name) => f.write_str(name),
            Property::WrittenSince(since) => write!(f, "written{since}"),
        }
    }
}

/// Where a value comes from.
#[derive(Clone, Debug, PartialEq, Eq)]
pub enum Source {
    None,
    Default,
    Local,
    Received,
    Inherited(String),
    Temporary,
}

impl Source {
    /// The word that `get -s` knows it by.
    pub fn word(&self) -> &'static str {
        match self {
            Source::None => "none",
            Source::Default => "default",
            Source::Local => "local",
            Source::Received => "received",
            Source::Inherited(_) => "inherited",
            Source::Temporary => "temporary",
        }
    }
}

impl fmt::Display for Source {
    fn fmt(&self, f: &mut fmt::Formatter<'_>) -> fmt::Result {
        match self {
            Source::None => f.write_str("-"),
            Source::Inherited(from) => write!(f, "inherited from {from}"),
            other => f.write_str(other.word()),
        }
    }
}
