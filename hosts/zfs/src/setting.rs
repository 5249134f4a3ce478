//! Properties that are set: checked as libzfs checks them, then kept here or in the layer.

use crate::dataset::{Dataset, FileSystem, Kind, Part, Values};
use crate::failure::{Failure, Outcome, Reason};
use crate::host::Host;
use crate::layer::{Layer, Refusal};
use crate::name;
use crate::property::{value, Kinds, Native, Property};
use crate::size;
use std::collections::BTreeSet;
use yuzgont::Property as Number;

/// A property and the value that is to be set.
#[derive(Clone, Debug, PartialEq, Eq)]
pub struct Setting {
    pub property: String,
    pub value: String,
}

/// The largest limit of the layer, and the bytes of its blocks: a limit is a multiple of them.
const LIMIT_MOST: u64 = 1 << 49;
const BLOCK: u64 = 512;

/// How far a receive may go over a refquota: as far as one transaction of ZFS may, DMU_MAX_ACCESS times spa_asize_inflation.
const REFQUOTA_SLACK: u64 = 24 * (64 << 20);

/// The bytes of a volume's block where nothing is said.
pub const VOLUME_BLOCK: u64 = 8192;

/// What libzfs reserves for a volume, of however many copies: its blocks, and two of each of ZFS's indirect blocks above them.
pub fn volume_reservation(size: u64, block: u64) -> u64 {
    const INDIRECT: u64 = 1 << 17;
    const POINTERS: u64 = 1 << 10;
    let mut level = size / block.max(1);
    let mut indirects = 7;
    while level > 1 {
        level = level.div_ceil(POINTERS);
        indirects += level;
    }
    size.saturating_add(2 * indirects * INDIRECT)
}

/// Settings from words `property=value`, each property once.
pub fn settings<'a>(words: impl Iterator<Item = &'a str>) -> Outcome<Vec<Setting>> {
    let mut settings: Vec<Setting> = Vec::new();
    for word in words {
        let told = |text: String| Err(Failure::Told(text));
        let Some((property, value)) = word.split_once('=') else { return told("missing '=' for property=value argument".into()) };
        if settings.iter().any(|setting| setting.property == property) {
            return told(format!("property '{property}' specified multiple times"));
        }
        settings.push(Setting { property: property.to_owned(), value: value.to_owned() });
    }
    Ok(settings)
}

/// A setting that may be made.
#[derive(Clone, Debug, PartialEq, Eq)]
pub enum Checked {
    User(String, String),
    Native(Native, String),
    /// A quota of a user or a group: it is kept, and binds nobody.
    Account(String, String),
}

/// Checks a setting for datasets of a kind; with `is_new` the dataset is to be created with it.
pub fn check(setting: &Setting, kind: Kind, is_new: bool) -> Result<Checked, Reason> {
    let Setting { property, value } = setting;
    match Property::named(property) {
        Some(Property::User(name)) => value::check_user(&name, value).map(|()| Checked::User(name, value.clone())),
        _ if kind == Kind::Snapshot => Err(Reason::FixedForSnapshots),
        Some(Property::Native(native)) => check_native(native, property, value, kind, is_new),
        Some(Property::Account(name)) if name.contains("quota@") => {
            let number = if value == "none" { 0 } else { size::parsed(value)? };
            Ok(Checked::Account(name, number.to_string()))
        }
        Some(_) => Err(Reason::ReadOnly(property.clone())),
        None => Err(Reason::NoProperty(property.clone())),
    }
}

fn check_native(native: Native, property: &str, value: &str, kind: Kind, is_new: bool) -> Result<Checked, Reason> {
    if !native.kinds().has(kind) {
        return Err(Reason::NotOfKind(property.to_owned()));
    }
    let is_fixed = native.is_read_only() && !(is_new && native.is_set_at_creation());
    if is_fixed {
        return Err(Reason::ReadOnly(property.to_owned()));
    }
    if native == Native::RefReservation && value == "auto" && kind == Kind::Volume {
        return Ok(Checked::Native(native, "auto".into()));
    }
    let text = value::checked(native, value)?;
    match native {
        Native::Encryption if text != "off" => Err(Reason::NoEncryption),
        Native::KeyFormat | Native::Pbkdf2Iters if is_new => Err(Reason::NoEncryption),
        _ => Ok(Checked::Native(native, text)),
    }
}

/// Checks all settings of a new dataset: a normalization wants names in UTF-8.
pub fn check_new(settings: &[Setting], kind: Kind) -> Result<Vec<Checked>, Reason> {
    let mut checked = settings.iter().map(|setting| check(setting, kind, true)).collect::<Result<Vec<_>, _>>()?;
    let find = |checked: &[Checked], native: Native| {
        checked.iter().find_map(|it| match it {
            Checked::Native(one, text) if *one == native => Some(text.clone()),
            _ => None,
        })
    };
    let is_normal = find(&checked, Native::Normalization).is_some_and(|text| text != "none");
    match find(&checked, Native::Utf8Only).as_deref() {
        None if is_normal => checked.push(Checked::Native(Native::Utf8Only, "on".into())),
        Some("off") if is_normal => return Err(Reason::Text("'utf8only' must be set 'on' if normalization chosen".into())),
        _ => {}
    }
    Ok(checked)
}

impl Checked {
    pub fn property(&self) -> Property {
        match self {
            Checked::User(name, _) => Property::User(name.clone()),
            Checked::Native(native, _) => Property::Native(*native),
            Checked::Account(name, _) => Property::Account(name.clone()),
        }
    }
}

impl Host {
    /// Sets what was checked. What that mounts and unmounts is the caller's (`settle_mounts`).
    pub fn set(&mut self, name: &str, checked: &Checked) -> Result<(), Reason> {
        match checked {
            Checked::User(property, value) | Checked::Account(property, value) => self.keep(name, property, value),
            Checked::Native(native, value) => self.set_native(name, *native, value),
        }
    }

    /// Sets what was checked, of a dataset that has just been made: its version may be an older one.
    pub fn set_new(&mut self, name: &str, checked: &Checked) -> Result<(), Reason> {
        match checked {
            Checked::Native(Native::Version, value) => self.keep(name, Native::Version.name(), value),
            other => self.set(name, other),
        }
    }

    /// Keeps a value as the dataset's own.
    fn keep(&mut self, name: &str, property: &str, value: &str) -> Result<(), Reason> {
        self.local(name)?.insert(property.to_owned(), value.to_owned());
        Ok(())
    }

    fn local(&mut self, name: &str) -> Result<&mut Values, Reason> {
        if name.contains('@') {
            return self.tree.edit_snapshot(name).map(|it| &mut it.local).ok_or(Reason::NoDataset);
        }
        self.tree.edit(name).map(|it| &mut it.local).ok_or(Reason::NoDataset)
    }

    fn set_native(&mut self, name: &str, native: Native, value: &str) -> Result<(), Reason> {
        match native {
            _ if native.is_limit() => self.set_limit(name, native, value),
            Native::VolSize => self.set_volume_size(name, value),
            Native::Version => {
                let now = self.tree.get(name).and_then(|it| it.local.get("version").cloned()).unwrap_or_else(|| "5".into());
                if value < now.as_str() {
                    return Err(Reason::Text(format!("Can not downgrade; already at version {now}")));
                }
                self.keep(name, native.name(), value)
            }
            _ => self.keep(name, native.name(), value),
        }
    }

    /// Sets a limit of the layer, rounded up to blocks. The number itself is told back.
    pub fn set_limit(&mut self, name: &str, native: Native, value: &str) -> Result<(), Reason> {
        let whole = self.tree.whole(name).ok_or(Reason::NoDataset)?;
        let number = match value {
            "auto" => reservation_of(&whole.base, whole.base.number("volsize").unwrap_or(0)),
            _ => value.parse().map_err(|_| Reason::Text(format!("bad numeric value '{value}'")))?,
        };
        self.check_limit(&whole, native, number)?;
        self.layer.order(&format!("set {native}={} {}", in_blocks(number), whole.path)).map_err(|refusal| match (native, refusal) {
            (_, Refusal::NoMemory) => Reason::NoMemory,
            (Native::Quota | Native::RefQuota, _) => Reason::LimitBelowUse,
            _ => Reason::TooBigLimit,
        })?;
        let file_system = self.tree.edit(name).ok_or(Reason::NoDataset)?;
        file_system.local.insert(native.name().to_owned(), number.to_string());
        if number == 0 {
            file_system.local.remove(native.name());
        }
        file_system.is_over_refquota &= native != Native::RefQuota;
        Ok(())
    }

    /// Runs a receive onto a file system. As in ZFS its refquota doesn't bind that: it may go over it, but by no more than the slack.
    pub fn receive_over_refquota(&mut self, base: &str, receive: impl FnOnce(&mut Layer) -> Result<(), Refusal>) -> Result<(), Refusal> {
        let file_system = self.tree.get(base).ok_or(Refusal::NoDataset)?;
        let (path, refquota) = (name::in_layer(base), refquota_of(file_system));
        if refquota == 0 {
            return receive(&mut self.layer);
        }
        self.layer.order(&format!("set refquota=none {path}"))?;
        receive(&mut self.layer)?;
        if self.layer.get(&path, Number::Referenced)? > refquota.saturating_add(REFQUOTA_SLACK) {
            return Err(Refusal::RefQuota);
        }
        self.bind_refquota(base)
    }

    /// Gives the layer a file system's refquota, or what it refers to where that is more.
    fn bind_refquota(&mut self, base: &str) -> Result<(), Refusal> {
        let file_system = self.tree.edit(base).ok_or(Refusal::NoDataset)?;
        let (path, refquota) = (name::in_layer(base), in_blocks(refquota_of(file_system)));
        let referenced = self.layer.get(&path, Number::Referenced)?;
        file_system.is_over_refquota = referenced > refquota;
        self.layer.order(&format!("set refquota={} {path}", refquota.max(referenced)))
    }

    /// Does so where a receive went over it: what a file system refers to may be less now.
    pub fn bind_refquotas(&mut self) -> Result<(), Refusal> {
        let over: Vec<String> = self.tree.iter().filter(|(_, it)| it.is_over_refquota).map(|(name, _)| name.clone()).collect();
        over.iter().try_for_each(|name| self.bind_refquota(name))
    }

    /// What ZFS asks beside what the layer does: a quota is at least the reservation of the same kind, and a reservation fits.
    fn check_limit(&mut self, whole: &Dataset, native: Native, number: u64) -> Result<(), Reason> {
        let own = |property: Native| whole.base.local.get(property.name()).and_then(|text| text.parse::<u64>().ok()).unwrap_or(0);
        match native {
            Native::Quota if number > 0 && number < own(Native::Reservation) => Err(Reason::LimitBelowUse),
            Native::RefQuota if number > 0 && number < own(Native::RefReservation) => Err(Reason::LimitBelowUse),
            Native::Reservation if own(Native::Quota) > 0 && number > own(Native::Quota) => Err(Reason::TooBigLimit),
            Native::RefReservation if own(Native::RefQuota) > 0 && number > own(Native::RefQuota) => Err(Reason::TooBigLimit),
            Native::Reservation | Native::RefReservation if number > LIMIT_MOST => Err(Reason::TooBigLimit),
            _ => Ok(()),
        }
    }

    /// A volume's size is a multiple of its blocks. A refreservation that is what libzfs reserves for it stays so.
    fn set_volume_size(&mut self, name: &str, value: &str) -> Result<(), Reason> {
        let base = self.tree.get(name).ok_or(Reason::NoDataset)?.clone();
        let number: u64 = value.parse().unwrap_or(0);
        let block = base.number("volblocksize").unwrap_or(VOLUME_BLOCK);
        if !number.is_multiple_of(block) {
            return Err(Reason::Text(format!("'volsize' must be a multiple of volume block size ({})", size::bytes(block))));
        }
        if number == 0 {
            return Err(Reason::Text("'volsize' cannot be zero".into()));
        }
        let usual = base.number("volsize").map(|old| reservation_of(&base, old));
        if usual.is_some() && usual == base.number("refreservation") {
            let reserved = self.set_limit(name, Native::RefReservation, &reservation_of(&base, number).to_string());
            reserved.map_err(|reason| if reason == Reason::TooBigLimit { Reason::NoSpace } else { reason })?;
        }
        self.keep(name, "volsize", value)
    }

    /// Takes away the dataset's own value, so that it is inherited; with `to_received` what was received counts again.
    pub fn inherit(&mut self, name: &str, property: &Property, to_received: bool) -> Result<(), Reason> {
        let dataset = self.tree.find(name).ok_or(Reason::NoDataset)?;
        let key = property.to_string();
        match (&dataset.part, property) {
            (Part::Whole, Property::Native(native)) if native.is_limit() => {
                let received = dataset.base.received.get(&key).filter(|_| to_received).cloned();
                self.set_limit(name, *native, received.as_deref().unwrap_or("0"))?;
                if received.is_some() {
                    self.local(name)?.remove(&key);
                }
            }
            (Part::Whole, _) => {
                let it = self.tree.edit(name).ok_or(Reason::NoDataset)?;
                inherited(&mut it.local, &it.received, &mut it.hidden, key, to_received);
            }
            _ => {
                let it = self.tree.edit_snapshot(name).ok_or(Reason::NoDataset)?;
                inherited(&mut it.local, &it.received, &mut it.hidden, key, to_received);
            }
        }
        Ok(())
    }
}

/// A limit as the layer has it, rounded up to blocks.
fn in_blocks(number: u64) -> u64 {
    number.min(LIMIT_MOST).div_ceil(BLOCK) * BLOCK
}

/// A file system's refquota, set or received; 0 where it has none.
fn refquota_of(file_system: &FileSystem) -> u64 {
    let text = file_system.local.get("refquota").or_else(|| file_system.received.get("refquota"));
    text.and_then(|text| text.parse().ok()).unwrap_or(0)
}

/// What is reserved for a volume of this size, with the blocks of one that is there.
fn reservation_of(base: &FileSystem, size: u64) -> u64 {
    volume_reservation(size, base.number("volblocksize").unwrap_or(VOLUME_BLOCK))
}

/// Takes a local value away, and hides what was received or, with `to_received`, shows it again.
fn inherited(local: &mut Values, received: &Values, hidden: &mut BTreeSet<String>, property: String, to_received: bool) {
    local.remove(&property);
    if to_received {
        hidden.remove(&property);
    } else if received.contains_key(&property) {
        hidden.insert(property);
    }
}

/// Whether a kind of dataset has a property at all.
pub fn applies(property: &Property, kind: Kind) -> bool {
    match property {
        Property::Native(native) => native.kinds().has(kind),
        _ => !Kinds::BOOKMARK.has(kind),
    }
}

#[cfg(test)]
mod tests {
    use super::*;
    use crate::host::tests::{host, make};

    fn setting(property: &str, value: &str) -> Setting {
        Setting { property: property.into(), value: value.into() }
    }

    #[test]
    fn settings_are_checked_for_their_kind() {
        let checked = |property, value, kind| check(&setting(property, value), kind, false).map_err(|reason| reason.to_string());
        assert!(checked("compression", "lz4", Kind::FileSystem).is_ok());
        assert!(checked("x:y", "", Kind::Snapshot).is_ok());
        assert_eq!(checked("used", "1", Kind::FileSystem).unwrap_err(), "'used' is readonly");
        assert_eq!(checked("volsize", "1", Kind::FileSystem).unwrap_err(), "'volsize' does not apply to datasets of this type");
        assert_eq!(checked("atime", "on", Kind::Snapshot).unwrap_err(), "this property can not be modified for snapshots");
        assert_eq!(checked("nothing", "1", Kind::FileSystem).unwrap_err(), "invalid property 'nothing'");
        assert_eq!(checked("utf8only", "on", Kind::FileSystem).unwrap_err(), "'utf8only' is readonly");
        assert!(check(&setting("utf8only", "on"), Kind::FileSystem, true).is_ok());
    }

    #[test]
    fn a_normalization_wants_utf8() {
        let checked = check_new(&[setting("normalization", "formC")], Kind::FileSystem).unwrap();
        assert!(checked.contains(&Checked::Native(Native::Utf8Only, "on".into())));
        assert!(check_new(&[setting("normalization", "formC"), setting("utf8only", "off")], Kind::FileSystem).is_err());
    }

    #[test]
    fn a_limit_is_told_back_exactly_and_bounds_the_layer() {
        let mut host = host();
        make(&mut host, "tank/a");
        host.set("tank/a", &Checked::Native(Native::Quota, "100001".into())).unwrap();
        assert_eq!(host.tree.get("tank/a").unwrap().local["quota"], "100001");
        let path = host.open("tank/a").unwrap().path;
        assert_eq!(host.layer.number(&format!("get quota {path}")), Ok(100_352));
        assert_eq!(host.set("tank/a", &Checked::Native(Native::Quota, "512".into())), Err(Reason::LimitBelowUse));
        assert_eq!(host.set("tank/a", &Checked::Native(Native::Reservation, "100002".into())), Err(Reason::TooBigLimit));
        assert_eq!(host.set("tank/a", &Checked::Native(Native::RefReservation, "1000000000".into())), Err(Reason::TooBigLimit));
    }

    #[test]
    fn settings_are_words_with_an_equals_sign() {
        let read = |words: &[&str]| settings(words.iter().copied()).map_err(|failure| failure.to_string());
        assert_eq!(read(&["a=b=c"]).unwrap(), [setting("a", "b=c")]);
        assert_eq!(read(&["a"]).unwrap_err(), "missing '=' for property=value argument\n");
        assert_eq!(read(&["a=1", "a=2"]).unwrap_err(), "property 'a' specified multiple times\n");
    }

    /// What OpenZFS 2.1.11 tells for a volume of this size.
    #[test]
    fn a_volume_reserves_its_indirect_blocks_too() {
        assert_eq!(volume_reservation(10 << 20, VOLUME_BLOCK), 13_107_200);
    }
}
