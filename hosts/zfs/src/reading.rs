//! What properties read as: values of the layer, what the host keeps, and inheritance.

use crate::dataset::{Dataset, FileSystem, Kind, Part, Tree, Values};
use crate::host::Host;
use crate::layer::Refusal;
use crate::name;
use crate::output;
use crate::property::{Form, Native, Property, Source};
use crate::size;
use crate::stream::token;
use crate::stream::younger::younger_blocks;
use std::collections::BTreeSet;
use std::rc::Rc;
use yuzgont::Property as Number;

/// The bytes of a block.
const BLOCK: u64 = 512;

/// The most bytes of a value that is shown, as of a list of clones: libzfs has no room for more.
const SHOWN_LIMIT: usize = 4095;

/// A value, in digits and words, and where it comes from.
#[derive(Clone, Debug, PartialEq, Eq)]
pub struct Value {
    pub text: String,
    pub source: Source,
}

impl Value {
    fn plain(text: impl Into<String>) -> Value {
        Value { text: text.into(), source: Source::None }
    }

    fn default(text: &str) -> Value {
        Value { text: text.to_owned(), source: Source::Default }
    }

    /// What stands where there is none.
    fn none() -> Value {
        Value::plain("-")
    }
}

/// The value as it is shown: exactly with `is_exact`, else with units and dates.
pub fn shown(property: &Property, value: &Value, is_exact: bool) -> String {
    let text = &value.text;
    if text == "-" || text.is_empty() {
        return text.clone();
    }
    match property {
        Property::Native(native) => shown_native(*native, text, is_exact),
        Property::WrittenSince(_) if !is_exact => sized(text),
        _ => text.clone(),
    }
}

fn shown_native(native: Native, text: &str, is_exact: bool) -> String {
    match native {
        Native::CompressRatio | Native::RefCompressRatio => format!("{text}{}", if is_exact { "" } else { "x" }),
        _ if is_exact => text.to_owned(),
        Native::Creation => text.parse().map_or_else(|_| text.to_owned(), output::date),
        Native::Guid | Native::CreateTxg | Native::ObjSetId => text.to_owned(),
        _ if native.is_limit() && text == "0" => "none".to_owned(),
        Native::SpecialSmallBlocks => text.parse().map_or_else(|_| text.to_owned(), size::plain),
        _ if native.form() == Form::Size => sized(text),
        _ => text.to_owned(),
    }
}

fn sized(text: &str) -> String {
    text.parse().map_or_else(|_| text.to_owned(), size::bytes)
}

/// The property of the layer, where that is a number.
fn number(native: Native) -> Option<Number> {
    Some(match native {
        Native::Used | Native::LogicalUsed => Number::Used,
        Native::Available => Number::Available,
        Native::Referenced | Native::LogicalReferenced => Number::Referenced,
        Native::Written => Number::Written,
        Native::UsedByDataset => Number::UsedByDataset,
        Native::UsedBySnapshots => Number::UsedBySnapshots,
        Native::UsedByChildren => Number::UsedByChildren,
        Native::UsedByRefReservation => Number::UsedByRefReservation,
        Native::Quota => Number::Quota,
        Native::RefQuota => Number::RefQuota,
        Native::Reservation => Number::Reservation,
        Native::RefReservation => Number::RefReservation,
        Native::UserRefs => Number::UserRefs,
        _ => return None,
    })
}

impl Host {
    /// The value of a property; none where datasets of this kind haven't it.
    pub fn value(&mut self, dataset: &Dataset, property: &Property) -> Option<Value> {
        match property {
            Property::Native(native) => self.native_value(dataset, *native),
            Property::User(name) if dataset.kind() == Kind::Bookmark => self.no_value(name),
            Property::User(name) => Some(self.user_value(dataset, name)),
            Property::WrittenSince(since) => Some(self.written_since(dataset, since)),
            Property::Account(_) => Some(Value::none()),
        }
    }

    fn no_value(&self, _name: &str) -> Option<Value> {
        None
    }

    fn native_value(&mut self, dataset: &Dataset, native: Native) -> Option<Value> {
        if !native.kinds().has(dataset.kind()) {
            return None;
        }
        if native.is_limit() {
            return Some(self.limit(dataset, native));
        }
        if let (Part::Bookmark(bookmark), Native::Referenced | Native::LogicalReferenced) = (&dataset.part, native) {
            return Some(Value::plain(bookmark.referenced.to_string()));
        }
        if let Some(number) = number(native) {
            return Some(self.layer.get(&dataset.path, number).map_or_else(|_| Value::none(), |it| Value::plain(it.to_string())));
        }
        if native.attribute() == crate::property::Attribute::ReadOnly {
            return self.kept_value(dataset, native);
        }
        self.settable(dataset, native)
    }

    /// A limit of the layer. What was set is told exactly, though the layer rounds it up to blocks.
    fn limit(&mut self, dataset: &Dataset, native: Native) -> Value {
        if let Some(text) = dataset.base.local.get(native.name()) {
            return Value { text: text.clone(), source: Source::Local };
        }
        if let Some(text) = dataset.base.received.get(native.name()) {
            return Value { text: text.clone(), source: Source::Received };
        }
        Value::default("0")
    }

    /// What nobody sets.
    fn kept_value(&mut self, dataset: &Dataset, native: Native) -> Option<Value> {
        let base = &dataset.base;
        let text = match native {
            Native::Name => dataset.name.clone(),
            Native::Type => dataset.kind().to_string(),
            Native::Creation => creation(dataset).to_string(),
            Native::Guid => dataset.guid().to_string(),
            Native::CreateTxg => dataset.create_txg().to_string(),
            Native::ObjSetId => dataset.snapshot().map_or(base.objset, |snapshot| snapshot.objset).to_string(),
            // What a bookmark's snapshot had isn't kept.
            Native::CompressRatio if dataset.kind() == Kind::Bookmark => "-".into(),
            Native::CompressRatio | Native::RefCompressRatio => "1.00".into(),
            Native::Mounted => if base.is_mounted { "yes" } else { "no" }.into(),
            Native::Origin => self.origin(&dataset.name).unwrap_or_else(|| "-".into()),
            Native::Clones => {
                let mut names = self.clones(dataset).map(|names| names.join(",")).unwrap_or_default();
                names.truncate(SHOWN_LIMIT);
                if names.is_empty() { "-".into() } else { names }
            }
            Native::DeferDestroy => self.layer.ask(&format!("get defer_destroy {}", dataset.path)).unwrap_or_else(|_| "off".into()),
            Native::FileSystemCount | Native::SnapshotCount => return Some(Value::default("none")),
            Native::ReceiveResumeToken => base.partial.as_ref().map_or_else(|| "-".into(), |partial| token::of(partial)),
            Native::EncryptionRoot | Native::RedactSnaps | Native::KeyStatus => "-".into(),
            _ => return None,
        };
        Some(Value::plain(text))
    }

    /// What is set, or inherited, or the default.
    fn settable(&mut self, dataset: &Dataset, native: Native) -> Option<Value> {
        match native {
            Native::VolSize => Some(volume_size(dataset)),
            Native::VolBlockSize if dataset.base.local.get(native.name()).is_none_or(|size| size == native.default()) => {
                Some(Value::default(native.default()))
            }
            Native::VolBlockSize | Native::Version | Native::CaseSensitivity | Native::Normalization | Native::Utf8Only => {
                Some(Value::plain(dataset.base.local.get(native.name()).map_or(native.default(), String::as_str)))
            }
            Native::Encryption => Some(Value::default("off")),
            Native::MountPoint => {
                let (text, source) = self.mount_point(&dataset.name);
                Some(Value { text, source })
            }
            _ => {
                let temporary = self.of_mount(dataset, native);
                let kept = temporary.or_else(|| self.inherited(dataset, native.name(), native.is_inherited()));
                Some(kept.unwrap_or_else(|| Value::default(native.default())))
            }
        }
    }

    /// What an option of a mount says of a property, as long as it is mounted.
    fn of_mount(&self, dataset: &Dataset, native: Native) -> Option<Value> {
        if dataset.snapshot().is_some() || !dataset.base.is_mounted || native.values() != "on | off" {
            return None;
        }
        let text = dataset.base.mount_options.iter().rev().find_map(|option| mount_option(native, option))?;
        Some(Value { text: text.into(), source: Source::Temporary })
    }

    fn user_value(&mut self, dataset: &Dataset, name: &str) -> Value {
        self.inherited(dataset, name, true).unwrap_or_else(Value::none)
    }

    /// Looks for a value in the dataset, and upwards where it is inherited.
    fn inherited(&self, dataset: &Dataset, property: &str, is_inherited: bool) -> Option<Value> {
        if let Part::Snapshot(snapshot) = &dataset.part {
            if let Some(value) = own(&snapshot.local, &snapshot.received, &snapshot.hidden, property) {
                return Some(value);
            }
        }
        let mut at = name::base(&dataset.name);
        loop {
            let file_system = self.tree.get(at)?;
            if let Some(mut value) = own(&file_system.local, &file_system.received, &file_system.hidden, property) {
                if at != dataset.name {
                    value.source = Source::Inherited(at.to_owned());
                }
                return Some(value);
            }
            if !is_inherited {
                return None;
            }
            at = name::parent(at)?;
        }
    }

    /// A mountpoint that is inherited has the rest of the name behind it. The pool's alternate root stands before it.
    pub fn mount_point(&self, name: &str) -> (String, Source) {
        let (place, source) = mount_point_in(&self.tree, name);
        (self.rooted(place), source)
    }

    fn rooted(&self, place: String) -> String {
        let root = self.facts.properties.get("altroot").map_or("", |root| root.trim_end_matches('/'));
        if root.is_empty() || !place.starts_with('/') { place } else { format!("{root}{}", place.trim_end_matches('/')) }
    }

    /// The file systems that are mounted, and where.
    pub fn mounted(&self) -> Vec<(String, String)> {
        let names = self.tree.iter().map(|(name, _)| name);
        names.filter_map(|name| self.mounted_at(&self.tree, name).map(|place| (name.clone(), place))).collect()
    }

    /// Where a file system was mounted at the last sync.
    pub fn settled_place(&self, name: &str) -> Option<String> {
        self.mounted_at(self.settled(), name)
    }

    fn mounted_at(&self, tree: &Tree, name: &str) -> Option<String> {
        let file_system = tree.get(name).filter(|it| it.is_mounted)?;
        Some(file_system.mounted_at.clone().unwrap_or_else(|| self.rooted(mount_point_in(tree, name).0)))
    }

    fn written_since(&mut self, dataset: &Dataset, since: &str) -> Value {
        let component = &since[1..];
        let target = if component.contains(['@', '#']) { component.to_owned() } else { format!("{}{since}", name::base(&dataset.name)) };
        let Some(target) = self.tree.find(&target) else { return Value::none() };
        let written = match target.part {
            Part::Whole => return Value::none(),
            Part::Snapshot(_) => self.written_since_snapshot(dataset, &target),
            Part::Bookmark(_) => self.written_since_bookmark(dataset, &target),
        };
        written.map_or_else(|_| Value::none(), |bytes| Value::plain(bytes.to_string()))
    }

    fn written_since_snapshot(&mut self, dataset: &Dataset, since: &Dataset) -> Result<u64, Refusal> {
        self.layer.number(&format!("get written@{} {}", since.path, dataset.path))
    }

    /// What was written since the bookmark's snapshot. Where that is gone, it is the blocks that a send from the bookmark tells of.
    fn written_since_bookmark(&mut self, dataset: &Dataset, since: &Dataset) -> Result<u64, Refusal> {
        let snapshot = self.by_guid(name::base(&since.name), since.guid());
        if let Some(written) = snapshot.and_then(|snapshot| self.written_since_snapshot(dataset, &snapshot).ok()) {
            return Ok(written);
        }
        let stream = match dataset.part {
            Part::Whole => self.stream_of_now(&dataset.path, &since.path)?,
            _ => self.layer.stream(&dataset.path, Some(&since.path), 0)?,
        };
        Ok(BLOCK * younger_blocks(&stream).ok_or(Refusal::BadStream)?)
    }

    /// The stream of a file system as it is now. The snapshot for it goes again.
    fn stream_of_now(&mut self, path: &str, from: &str) -> Result<Vec<u8>, Refusal> {
        let now = self.make_own_snapshot(path)?;
        let stream = self.layer.stream(&now, Some(from), 0);
        self.layer.order(&format!("destroy {now}"))?;
        stream
    }

    /// The user properties that a dataset has or inherits.
    pub fn user_properties(&self, dataset: &Dataset) -> Vec<String> {
        let mut names: Vec<String> = Vec::new();
        if let Part::Snapshot(snapshot) = &dataset.part {
            names.extend(users(&snapshot.local).chain(users(&snapshot.received)));
        }
        let mut at = Some(name::base(&dataset.name));
        while let Some(name) = at {
            if let Some(file_system) = self.tree.get(name) {
                names.extend(users(&file_system.local).chain(users(&file_system.received)));
            }
            at = name::parent(name);
        }
        names.sort();
        names.dedup();
        names
    }

    /// What was received, for the column of that name.
    pub fn received(&self, dataset: &Dataset, property: &Property) -> Value {
        let values = match &dataset.part {
            Part::Whole => &dataset.base.received,
            Part::Snapshot(snapshot) => &snapshot.received,
            Part::Bookmark(_) => return Value::none(),
        };
        values.get(&property.to_string()).map_or_else(Value::none, |text| Value::plain(text.clone()))
    }
}

fn mount_point_in(tree: &Tree, name: &str) -> (String, Source) {
    let mut at = name;
    loop {
        let found = tree.get(at).and_then(|it| own(&it.local, &it.received, &it.hidden, Native::MountPoint.name()));
        if let Some(value) = found {
            return match value.text.as_str() {
                _ if at == name => (value.text, value.source),
                "none" | "legacy" => (value.text, Source::Inherited(at.to_owned())),
                above => (format!("{}{}", above.trim_end_matches('/'), &name[at.len()..]), Source::Inherited(at.to_owned())),
            };
        }
        match name::parent(at) {
            Some(above) => at = above,
            None => return (format!("/{name}"), Source::Default),
        }
    }
}

/// What an option of mount(8) says of a property.
fn mount_option(native: Native, option: &str) -> Option<&'static str> {
    let (on, off) = match native {
        Native::ATime => ("atime", "noatime"),
        Native::RelATime => ("relatime", "norelatime"),
        Native::Devices => ("dev", "nodev"),
        Native::Exec => ("exec", "noexec"),
        Native::SetUid => ("suid", "nosuid"),
        Native::ReadOnly => ("ro", "rw"),
        Native::NbMand => ("mand", "nomand"),
        _ => return None,
    };
    if option == on { Some("on") } else if option == off { Some("off") } else { None }
}

fn users(values: &Values) -> impl Iterator<Item = String> + '_ {
    values.keys().filter(|name| name.contains(':')).cloned()
}

pub fn own(local: &Values, received: &Values, hidden: &BTreeSet<String>, property: &str) -> Option<Value> {
    let found = |values: &Values, source| values.get(property).map(|text| Value { text: text.clone(), source });
    found(local, Source::Local).or_else(|| found(received, Source::Received).filter(|_| !hidden.contains(property)))
}

fn creation(dataset: &Dataset) -> i64 {
    match &dataset.part {
        Part::Whole => dataset.base.creation,
        Part::Snapshot(snapshot) => snapshot.creation,
        Part::Bookmark(bookmark) => bookmark.creation,
    }
}

fn volume_size(dataset: &Dataset) -> Value {
    let base: &Rc<FileSystem> = &dataset.base;
    if base.kind != Kind::Volume {
        return Value::none();
    }
    let size = match &dataset.part {
        Part::Snapshot(snapshot) => snapshot.volume_size.clone(),
        _ => base.local.get("volsize").cloned(),
    };
    size.map_or_else(Value::none, |text| Value { text, source: if dataset.snapshot().is_some() { Source::None } else { Source::Local } })
}

#[cfg(test)]
mod tests {
    use super::*;
    use crate::host::tests::{host, make, snapshot};

    fn read(host: &mut Host, name: &str, property: &str) -> (String, String) {
        let dataset = host.open(name).unwrap();
        let value = host.value(&dataset, &Property::named(property).unwrap()).unwrap();
        (value.text, value.source.to_string())
    }

    #[test]
    fn values_are_inherited_from_the_nearest() {
        let mut host = host();
        make(&mut host, "tank/a");
        make(&mut host, "tank/a/b");
        snapshot(&mut host, "tank/a/b@s");
        host.tree.edit("tank").unwrap().local.insert("compression".into(), "lz4".into());
        host.tree.edit("tank/a").unwrap().local.insert("x:y".into(), "z".into());
        assert_eq!(read(&mut host, "tank/a/b", "compression"), ("lz4".into(), "inherited from tank".into()));
        assert_eq!(read(&mut host, "tank", "compression"), ("lz4".into(), "local".into()));
        assert_eq!(read(&mut host, "tank/a/b@s", "x:y"), ("z".into(), "inherited from tank/a".into()));
        assert_eq!(read(&mut host, "tank", "x:y"), ("-".into(), "-".into()));
        assert_eq!(read(&mut host, "tank/a", "canmount"), ("on".into(), "default".into()));
    }

    #[test]
    fn an_inherit_hides_what_was_received_until_it_is_asked_for() {
        let mut host = host();
        make(&mut host, "tank/a");
        host.tree.edit("tank").unwrap().local.insert("compression".into(), "zle".into());
        host.tree.edit("tank/a").unwrap().received.insert("compression".into(), "lz4".into());
        assert_eq!(read(&mut host, "tank/a", "compression"), ("lz4".into(), "received".into()));
        let property = Property::Native(Native::Compression);
        host.inherit("tank/a", &property, false).unwrap();
        assert_eq!(read(&mut host, "tank/a", "compression"), ("zle".into(), "inherited from tank".into()));
        let dataset = host.open("tank/a").unwrap();
        assert_eq!(host.received(&dataset, &property).text, "lz4");
        host.inherit("tank/a", &property, true).unwrap();
        assert_eq!(read(&mut host, "tank/a", "compression"), ("lz4".into(), "received".into()));
    }

    #[test]
    fn an_inherited_mountpoint_has_the_rest_of_the_name() {
        let mut host = host();
        make(&mut host, "tank/a");
        assert_eq!(read(&mut host, "tank/a", "mountpoint"), ("/tank/a".into(), "default".into()));
        host.tree.edit("tank").unwrap().local.insert("mountpoint".into(), "/".into());
        assert_eq!(read(&mut host, "tank/a", "mountpoint"), ("/a".into(), "inherited from tank".into()));
        host.tree.edit("tank").unwrap().local.insert("mountpoint".into(), "none".into());
        assert_eq!(read(&mut host, "tank/a", "mountpoint"), ("none".into(), "inherited from tank".into()));
    }

    #[test]
    fn sizes_are_the_layer_s() {
        let mut host = host();
        make(&mut host, "tank/a");
        snapshot(&mut host, "tank/a@s");
        let (used, source) = read(&mut host, "tank/a", "used");
        assert!(used.parse::<u64>().unwrap() > 0 && source == "-");
        assert_eq!(read(&mut host, "tank/a@s", "used").0, "0");
        assert_eq!(read(&mut host, "tank/a@s", "referenced"), (used, "-".into()));
        assert_eq!(read(&mut host, "tank/a", "written").0, "0");
        assert_eq!(read(&mut host, "tank/a", "written@s").0, "0");
        assert_eq!(read(&mut host, "tank/a", "written@none").0, "-");
    }

    #[test]
    fn values_are_shown_with_units() {
        let value = |text: &str| Value::plain(text);
        let native = |native| Property::Native(native);
        assert_eq!(shown(&native(Native::Used), &value("1536"), false), "1.50K");
        assert_eq!(shown(&native(Native::Used), &value("1536"), true), "1536");
        assert_eq!(shown(&native(Native::Quota), &value("0"), false), "none");
        assert_eq!(shown(&native(Native::CompressRatio), &value("1.00"), false), "1.00x");
        assert_eq!(shown(&native(Native::Guid), &value("123456"), false), "123456");
    }
}
