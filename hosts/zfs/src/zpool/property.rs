//! The properties of pools.

use crate::failure::{Outcome, Reason};
use crate::host::Host;
use crate::output::Column;
use crate::property::Source;
use crate::size;
use std::fmt;

/// How a value is shown.
#[derive(Clone, Copy, Debug, PartialEq, Eq)]
enum Form {
    Size,
    Text,
    Choice(&'static [&'static str]),
}

const SWITCH: Form = Form::Choice(&["off", "on"]);

macro_rules! properties {
    ($($property:ident $name:literal $header:literal $form:expr, $settable:literal $default:literal;)*) => {
        #[derive(Clone, Debug, PartialEq, Eq)]
        pub enum PoolProperty {
            $($property,)*
            /// A feature, by its name.
            Feature(String),
        }

        impl PoolProperty {
            const ALL: &'static [PoolProperty] = &[$(PoolProperty::$property),*];

            fn row(&self) -> (&'static str, &'static str, Form, bool, &'static str) {
                match self {
                    $(PoolProperty::$property => ($name, $header, $form, $settable, $default),)*
                    PoolProperty::Feature(_) => ("feature@", "", Form::Text, true, ""),
                }
            }
        }
    };
}

properties! {
    Size "size" "SIZE" Form::Size, false "";
    Capacity "capacity" "CAP" Form::Text, false "";
    AltRoot "altroot" "ALTROOT" Form::Text, true "-";
    Health "health" "HEALTH" Form::Text, false "";
    Guid "guid" "GUID" Form::Text, false "";
    Version "version" "VERSION" Form::Text, true "-";
    BootFs "bootfs" "BOOTFS" Form::Text, true "-";
    Delegation "delegation" "DELEGATION" SWITCH, true "on";
    AutoReplace "autoreplace" "REPLACE" SWITCH, true "off";
    CacheFile "cachefile" "CACHEFILE" Form::Text, true "-";
    FailMode "failmode" "FAILMODE" Form::Choice(&["wait", "continue", "panic"]), true "wait";
    ListSnapshots "listsnapshots" "LISTSNAPS" SWITCH, true "off";
    AutoExpand "autoexpand" "EXPAND" SWITCH, true "off";
    DedupRatio "dedupratio" "DEDUP" Form::Text, false "";
    Free "free" "FREE" Form::Size, false "";
    Allocated "allocated" "ALLOC" Form::Size, false "";
    ReadOnly "readonly" "RDONLY" SWITCH, true "off";
    AShift "ashift" "ASHIFT" Form::Text, true "0";
    Comment "comment" "COMMENT" Form::Text, true "-";
    ExpandSize "expandsize" "EXPANDSZ" Form::Text, false "-";
    Freeing "freeing" "FREEING" Form::Size, false "";
    Fragmentation "fragmentation" "FRAG" Form::Text, false "";
    Leaked "leaked" "LEAKED" Form::Size, false "";
    MultiHost "multihost" "MULTIHOST" SWITCH, true "off";
    Checkpoint "checkpoint" "CKPOINT" Form::Text, false "-";
    LoadGuid "load_guid" "LOAD_GUID" Form::Text, false "";
    AutoTrim "autotrim" "AUTOTRIM" SWITCH, true "off";
    Compatibility "compatibility" "COMPATIBILITY" Form::Text, true "off";
    Name "name" "NAME" Form::Text, false "";
}

/// The features of OpenZFS 2.1. Whether one is active says what tools ask for: extensible datasets are what resumable receives need.
pub const FEATURES: [&str; 34] = [
    "async_destroy", "empty_bpobj", "lz4_compress", "multi_vdev_crash_dump", "spacemap_histogram", "enabled_txg", "hole_birth",
    "extensible_dataset", "embedded_data", "bookmarks", "filesystem_limits", "large_blocks", "large_dnode", "sha512", "skein", "edonr",
    "userobj_accounting", "encryption", "project_quota", "device_removal", "obsolete_counts", "zpool_checkpoint", "spacemap_v2",
    "allocation_classes", "resilver_defer", "bookmark_v2", "redaction_bookmarks", "redacted_datasets", "bookmark_written", "log_spacemap",
    "livelist", "device_rebuild", "zstd_compress", "draid",
];

/// The feature that no pool here has.
const ENCRYPTION: &str = "encryption";

impl PoolProperty {
    /// By its name, its column's, or a feature's.
    pub fn named(word: &str) -> Option<PoolProperty> {
        if let Some(feature) = word.strip_prefix("feature@") {
            return Some(PoolProperty::Feature(feature.to_owned()));
        }
        let is_it = |it: &&PoolProperty| it.row().0 == word || it.row().1.to_ascii_lowercase() == word;
        PoolProperty::ALL.iter().find(is_it).cloned()
    }

    /// All that `get all` shows.
    pub fn all() -> Vec<PoolProperty> {
        let natives = PoolProperty::ALL.iter().filter(|it| **it != PoolProperty::Name).cloned();
        natives.chain(FEATURES.iter().map(|feature| PoolProperty::Feature((*feature).to_owned()))).collect()
    }

    pub fn column(&self) -> Column {
        let header = if let PoolProperty::Feature(_) = self { self.to_string().to_uppercase() } else { self.row().1.to_owned() };
        let is_number = matches!(self, PoolProperty::AShift | PoolProperty::Version) || !self.row().3 && *self != PoolProperty::Name;
        Column { is_right_aligned: is_number, least: self.least_width(), ..Column::of_words(&header) }
    }

    /// The fewest letters of a column of it.
    pub fn least_width(&self) -> usize {
        match self {
            PoolProperty::Feature(_) => self.to_string().len(),
            PoolProperty::Health => 8,
            PoolProperty::Name => self.row().1.len(),
            _ if self.row().3 => self.row().1.len(),
            _ => self.row().1.len().max(5),
        }
    }

    /// The values that it has, as usage texts name them.
    fn values(&self) -> String {
        let text = match self {
            PoolProperty::AltRoot => "<path>",
            PoolProperty::BootFs => "<filesystem>",
            PoolProperty::CacheFile => "<file> | none",
            PoolProperty::Comment => "<comment-string>",
            PoolProperty::Compatibility => "<file[,file...]> | off | legacy",
            PoolProperty::Fragmentation => "<percent>",
            PoolProperty::DedupRatio => "<1.00x or higher if deduped>",
            PoolProperty::AShift => "<ashift, 9-16, or 0=default>",
            PoolProperty::Guid => "<guid>",
            PoolProperty::LoadGuid => "<load_guid>",
            PoolProperty::Health => "<state>",
            PoolProperty::Version => "<version>",
            _ => match self.row().2 {
                Form::Choice(["off", "on"]) => "on | off",
                Form::Choice(words) => return words.join(" | "),
                _ => "<size>",
            },
        };
        text.to_owned()
    }

    /// The table of all properties, those that nobody sets first.
    pub fn table() -> String {
        let mut text = format!("\nthe following properties are supported:\n\n\t{:<19}  EDIT   VALUES\n\n", "PROPERTY");
        let mut natives: Vec<&PoolProperty> = PoolProperty::ALL.iter().filter(|it| **it != PoolProperty::Name).collect();
        natives.sort_by_key(|it| (it.row().3, it.row().0));
        for native in natives {
            let (name, _, _, is_settable, _) = native.row();
            text += &format!("\t{name:<19}   {}   {}\n", if is_settable { "YES" } else { " NO" }, native.values());
        }
        text += &format!("\t{:<19}   YES   disabled | enabled | active\n", "feature@...");
        text + "\nThe feature@ properties must be appended with a feature name.\nSee zpool-features(7).\n"
    }

    /// Whether it is a feature that pools here haven't.
    pub fn is_unknown(&self) -> bool {
        matches!(self, PoolProperty::Feature(name) if !FEATURES.contains(&name.as_str()))
    }

    /// What may be set of a pool, or with `is_new` when it is created, as it is kept.
    pub fn checked(&self, value: &str, is_new: bool) -> Result<String, Reason> {
        let (name, _, form, is_settable, _) = self.row();
        let wrong = |text: String| Err(Reason::Text(text));
        if !is_settable {
            return Err(Reason::ReadOnly(self.to_string()));
        }
        match (self, form) {
            (PoolProperty::Feature(feature), _) if self.is_unknown() || feature == ENCRYPTION && value != "disabled" => wrong(format!("feature '{feature}' unsupported by kernel")),
            (PoolProperty::Feature(_), _) if !matches!(value, "enabled" | "disabled") => {
                wrong(format!("property '{self}' can only be set to 'enabled' or 'disabled'"))
            }
            (PoolProperty::Feature(_), _) if !is_new && value == "disabled" => {
                wrong(format!("property '{self}' can only be set to 'disabled' at creation time"))
            }
            (_, Form::Choice(words)) if !words.contains(&value) => wrong(format!("'{name}' must be one of '{}'", self.values())),
            (PoolProperty::ReadOnly, _) => wrong("property 'readonly' can only be set at import time".into()),
            (PoolProperty::AltRoot, _) if !is_new => wrong("property 'altroot' can only be set during pool creation or import".into()),
            (PoolProperty::BootFs, _) if is_new => wrong("property 'bootfs' cannot be set at creation or import time".into()),
            (PoolProperty::CacheFile, _) if !is_path(value) => {
                wrong("property 'cachefile' must be empty, an absolute path, or 'none'".into())
            }
            (PoolProperty::Comment, _) if value.len() > COMMENT_LIMIT => wrong(format!("comment must not exceed {COMMENT_LIMIT} characters")),
            (PoolProperty::Version, _) if value != "5000" => wrong(format!("property 'version' number {value} is invalid.")),
            (PoolProperty::AShift, _) => ashift(value),
            _ => Ok(value.to_owned()),
        }
    }

    /// The value, with units unless it is to be exact, and where it comes from.
    pub fn value(&self, host: &mut Host, is_exact: bool) -> Outcome<(String, Source)> {
        let kept = host.facts.properties.get(&self.to_string()).cloned();
        let (_, _, form, _, default) = self.row();
        let text = match self {
            PoolProperty::Size | PoolProperty::Free | PoolProperty::Allocated | PoolProperty::Freeing => self.size(host).to_string(),
            PoolProperty::Leaked => "0".into(),
            PoolProperty::Capacity => percent(PoolProperty::Allocated.size(host) * 100 / PoolProperty::Size.size(host).max(1), is_exact),
            PoolProperty::Fragmentation => percent(0, is_exact),
            PoolProperty::DedupRatio => if is_exact { "1.00" } else { "1.00x" }.into(),
            PoolProperty::Health => "ONLINE".into(),
            PoolProperty::Guid => host.facts.guid.to_string(),
            PoolProperty::LoadGuid => (host.facts.guid.rotate_left(17) | 1).to_string(),
            PoolProperty::Name => host.name.clone(),
            PoolProperty::Feature(_) if self.is_unknown() => return Ok(("-".into(), Source::None)),
            PoolProperty::Feature(name) if name == ENCRYPTION => return Ok(("disabled".into(), Source::Local)),
            PoolProperty::Feature(_) => {
                let is_active = self.is_active() || self.is_used(host);
                let value = kept.filter(|_| !is_active).unwrap_or_else(|| if is_active { "active" } else { "enabled" }.into());
                return Ok((value, Source::Local));
            }
            _ => return Ok(kept.map_or_else(|| (default.to_owned(), Source::Default), |value| (value, Source::Local))),
        };
        let shown = if form == Form::Size && !is_exact { text.parse().map_or(text, size::plain) } else { text };
        Ok((shown, Source::None))
    }

    /// Those that a pool uses from its creation on.
    fn is_active(&self) -> bool {
        matches!(self, PoolProperty::Feature(name) if matches!(name.as_str(), "extensible_dataset" | "enabled_txg" | "hole_birth" | "embedded_data"
            | "spacemap_histogram" | "lz4_compress" | "project_quota" | "userobj_accounting" | "spacemap_v2" | "log_spacemap"))
    }

    /// Whether a dataset has a value that only this feature takes.
    fn is_used(&self, host: &Host) -> bool {
        let (property, prefix) = match self {
            PoolProperty::Feature(name) => match name.as_str() {
                "zstd_compress" => ("compression", "zstd"),
                "sha512" => ("checksum", "sha512"),
                "skein" => ("checksum", "skein"),
                "edonr" => ("checksum", "edonr"),
                _ => return false,
            },
            _ => return false,
        };
        host.tree.iter().any(|(_, it)| it.local.get(property).or(it.received.get(property)).is_some_and(|value| value.starts_with(prefix)))
    }

    /// A size of the layer. What waits for a sync is allocated too.
    fn size(&self, host: &mut Host) -> u64 {
        let mut ask = |word: &str| host.layer.number(&format!("pget {word}")).unwrap_or(0);
        match self {
            PoolProperty::Size => ask("size"),
            PoolProperty::Allocated => ask("allocated"),
            PoolProperty::Freeing => ask("freeing"),
            _ => ask("size").saturating_sub(ask("allocated")),
        }
    }
}

/// The most bytes of a comment.
const COMMENT_LIMIT: usize = 32;

fn is_path(value: &str) -> bool {
    value.is_empty() || value == "none" || value.starts_with('/')
}

/// A shift of sectors: 0, or 9 to 16.
fn ashift(value: &str) -> Result<String, Reason> {
    let number = size::parsed(value)?;
    if number == 0 || (9..=16).contains(&number) {
        return Ok(number.to_string());
    }
    Err(Reason::Text(format!("property 'ashift' number {number} is invalid, only values between 9 and 16 are allowed.")))
}

fn percent(number: u64, is_exact: bool) -> String {
    if is_exact { number.to_string() } else { format!("{number}%") }
}

impl fmt::Display for PoolProperty {
    fn fmt(&self, f: &mut fmt::Formatter<'_>) -> fmt::Result {
        match self {
            PoolProperty::Feature(name) => write!(f, "feature@{name}"),
            other => f.write_str(other.row().0),
        }
    }
}

#[cfg(test)]
mod tests {
    use super::*;
    use crate::host::tests::host;

    #[test]
    fn properties_are_found_by_name_column_and_feature() {
        assert_eq!(PoolProperty::named("cap"), Some(PoolProperty::Capacity));
        assert_eq!(PoolProperty::named("allocated"), Some(PoolProperty::Allocated));
        assert_eq!(PoolProperty::named("feature@bookmarks").unwrap().to_string(), "feature@bookmarks");
        assert!(PoolProperty::named("feature@nothing").is_some_and(|feature| feature.is_unknown()));
        assert_eq!(PoolProperty::named("nothing"), None);
    }

    #[test]
    fn sizes_add_up() {
        let mut host = host();
        let mut number = |property: PoolProperty| property.value(&mut host, true).unwrap().0.parse::<u64>().unwrap();
        assert_eq!(number(PoolProperty::Size), number(PoolProperty::Allocated) + number(PoolProperty::Free));
        assert_eq!(number(PoolProperty::Size), 10_000 * 512);
        assert_eq!(number(PoolProperty::Capacity), 0);
    }

    #[test]
    fn what_is_set_is_checked() {
        let checked = |property: PoolProperty, value: &str| property.checked(value, false).map_err(|reason| reason.to_string());
        assert!(checked(PoolProperty::FailMode, "panic").is_ok());
        assert_eq!(checked(PoolProperty::Delegation, "never").unwrap_err(), "'delegation' must be one of 'on | off'");
        assert_eq!(checked(PoolProperty::Size, "1").unwrap_err(), "'size' is readonly");
        assert_eq!(checked(PoolProperty::Comment, &"x".repeat(33)).unwrap_err(), "comment must not exceed 32 characters");
        let disabled = PoolProperty::named("feature@lz4_compress").unwrap();
        assert!(disabled.checked("disabled", true).is_ok() && disabled.checked("disabled", false).is_err());
    }
}
