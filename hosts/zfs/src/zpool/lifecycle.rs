//! `zpool create`, `destroy`, `export` and `import`.

use super::property::PoolProperty;
use super::vdev::{self, Vdev};
use crate::call::Call;
use crate::dataset::{Kind, Values};
use crate::failure::{Action, Failure, Outcome, Reason, Trying};
use crate::host::{random, PoolFacts};
use crate::layer::Refusal;
use crate::name;
use crate::options::Options;
use crate::property::Property;
use crate::protocol::Status;
use crate::setting::{check_new, settings, Checked, Setting};
use crate::size;
use crate::usage::{Usage, ZpoolCommand};
use crate::world::NewPool;
use std::collections::HashSet;

const CREATE: Usage = Usage::Zpool(ZpoolCommand::Create);

/// The most blocks of a pool of the layer, and the bytes of one.
const BLOCKS_MOST: u64 = 4_194_304;
const BLOCK: u64 = 512;

/// The fewest bytes that ZFS makes a pool of.
const SIZE_LEAST: u64 = 64 << 20;

/// Checks the name of a pool that is to be made.
fn check_new_name(name: &str) -> Result<(), Reason> {
    name::check_pool(name)?;
    let is_reserved = ["mirror", "raidz", "draid", "spare"].iter().any(|word| name.starts_with(word)) || name == "log";
    if is_reserved { Err(Reason::Text("name is reserved".into())) } else { Ok(()) }
}

/// The settings of one option, each once and of a property that is known.
fn read_settings(options: &Options, letter: char, is_known: fn(&str) -> bool) -> Outcome<Vec<Setting>> {
    let what = if letter == 'o' { "pool" } else { "filesystem" };
    for word in options.arguments(letter) {
        match word.split_once('=') {
            None => return Err(Failure::Told(format!("missing '=' for -{letter} option"))),
            Some((name, _)) if !is_known(name) => return Err(Failure::Told(format!("property '{name}' is not a valid {what} property"))),
            _ => {}
        }
    }
    settings(options.arguments(letter))
}

/// The settings of a pool that is to be made, and those of its root file system.
struct NewSettings {
    pool: Vec<Setting>,
    root: Vec<Setting>,
}

impl NewSettings {
    fn read(options: &Options) -> Outcome<NewSettings> {
        let mut pool = read_settings(options, 'o', |name| PoolProperty::named(name).is_some())?;
        if let Some(folder) = options.argument('R') {
            pool.retain(|setting| setting.property != "altroot");
            pool.push(Setting { property: "altroot".into(), value: folder.into() });
        }
        let mut root = read_settings(options, 'O', |name| Property::named(name).is_some())?;
        if let Some(point) = options.argument('m') {
            root.retain(|setting| setting.property != "mountpoint");
            root.push(Setting { property: "mountpoint".into(), value: point.into() });
        }
        Ok(NewSettings { pool, root })
    }

    /// What OpenZFS looks at before it looks at the pool's name.
    fn check_early(&self) -> Outcome {
        let told = |text: String| Err(Failure::Told(text));
        let find = |settings: &[Setting], name: &str| settings.iter().find(|it| it.property == name).map(|it| it.value.clone());
        match find(&self.pool, "ashift") {
            Some(word) if size::parsed(&word).is_err() => return told("ashift must be a number.".into()),
            Some(word) if PoolProperty::AShift.checked(&word, true).is_err() => {
                return told(format!("invalid 'ashift={word}' property: only values between 9 and 16 are allowed."));
            }
            _ => {}
        }
        if let Some(folder) = find(&self.pool, "altroot").filter(|folder| !folder.starts_with('/')) {
            return told(format!("invalid alternate root '{folder}': must be an absolute path"));
        }
        match find(&self.root, "mountpoint") {
            Some(point) if !point.starts_with('/') && !matches!(point.as_str(), "legacy" | "none") => {
                told(format!("invalid mountpoint '{point}': must be an absolute path, 'legacy', or 'none'"))
            }
            _ => Ok(()),
        }
    }

    fn checked(self) -> Result<(Values, Vec<Checked>), Reason> {
        let mut properties = Values::new();
        for Setting { property, value } in self.pool {
            let known = PoolProperty::named(&property).ok_or(Reason::NoProperty(property))?;
            let value = known.checked(&value, true)?;
            properties.insert(known.to_string(), value);
        }
        Ok((properties, check_new(&self.root, Kind::FileSystem)?))
    }
}


/// A device lends its size to one pool.
fn check_unused(call: &Call, vdevs: &[Vdev], is_forced: bool) -> Outcome {
    for pool in call.world.pools() {
        let taken = pool.run(|host| host.facts.vdevs.clone())?;
        let taken: Vec<&String> = taken.iter().flat_map(|vdev| &vdev.devices).collect();
        if let Some(device) = vdevs.iter().flat_map(|vdev| &vdev.devices).find(|device| taken.contains(device)) {
            let way = if is_forced { "the following errors must be manually repaired:" } else { "use '-f' to override the following errors:" };
            return Err(Failure::Told(format!("invalid vdev specification\n{way}\n{device} is part of active pool '{}'", pool.name)));
        }
    }
    Ok(())
}

/// Whether a device is named twice.
fn has_twice(vdevs: &[Vdev]) -> bool {
    let mut seen = HashSet::new();
    !vdevs.iter().flat_map(|vdev| &vdev.devices).all(|device| seen.insert(device))
}

pub fn create(call: &mut Call, words: &[String]) -> Outcome {
    let options = call.options(words, ":fndo:O:R:m:t:", CREATE)?;
    let usage = |reason: &str| Err(Failure::Usage(CREATE, reason.to_owned()));
    let given = NewSettings::read(&options)?;
    let [name, words @ ..] = &options.operands[..] else { return usage("missing pool name argument") };
    if words.is_empty() {
        return usage("missing vdev specification");
    }
    if name.contains('/') {
        let head = format!("cannot create '{name}': invalid character '/' in pool name");
        return Err(Failure::Told(format!("{head}\nuse 'zfs create' to create a dataset")));
    }
    let mut vdevs = vdev::read(words)?;
    let smallest = vdevs.iter_mut().map(Vdev::measure).collect::<Outcome<Vec<u64>>>()?.into_iter().min();
    check_unused(call, &vdevs, options.has('f'))?;
    given.check_early()?;
    if options.has('n') {
        call.output.line(&format!("would create '{name}' with the following layout:\n"));
        call.output.text(&vdev::layout(name, &vdevs, |line, _, _| format!("\t{line}\n")));
        return Ok(());
    }
    let action = || Action::Create(name.clone());
    let wrong = |text: &str| Err(Failure::Cannot(action(), Reason::Text(text.into())));
    if let Err(reason) = check_new_name(name) {
        return wrong(&format!("{reason}\npool name may have been omitted"));
    }
    let (properties, root) = given.checked().trying(action)?;
    if call.world.any_pool(name).is_some() {
        return wrong("pool already exists");
    }
    if has_twice(&vdevs) {
        return wrong("one or more vdevs refer to the same device, or one of\nthe devices is part of an active md or lvm device");
    }
    if smallest < Some(SIZE_LEAST) {
        return wrong("one or more devices is less than the minimum size (64M)");
    }
    let blocks = (vdevs.iter().map(|vdev| vdev.size).sum::<u64>() / BLOCK).min(BLOCKS_MOST) as u32;
    let facts = PoolFacts { guid: random(), vdevs, properties };
    make(call, NewPool { name: name.clone(), blocks, clock: call.clock(), facts }, root)
}

fn make(call: &mut Call, new: NewPool, root: Vec<Checked>) -> Outcome {
    let name = new.name.clone();
    let action = || Action::Create(name.clone());
    let pool = match call.world.create(new) {
        Ok(Some(pool)) => pool,
        Ok(None) => return Err(Failure::Cannot(action(), Reason::Text("pool already exists".into()))),
        Err(Refusal::NoMemory) => return Err(Failure::Cannot(action(), Reason::NoMemory)),
        Err(refusal) => return Err(Failure::Cannot(action(), refusal.into())),
    };
    let made = call.change(&pool, move |host| {
        let name = host.name.clone();
        root.iter().try_for_each(|setting| host.set(&name, setting)).trying(|| Action::Create(name.clone()))?;
        // A pool is made even where its root can't be mounted.
        let _ = host.mount_new(&name);
        Ok(())
    });
    if made.is_err() {
        call.world.destroy(&name);
    } else {
        call.log(&pool);
    }
    made
}

pub fn destroy(call: &mut Call, words: &[String]) -> Outcome {
    let usage = Usage::Zpool(ZpoolCommand::Destroy);
    let options = call.options(words, "f", usage)?;
    match &options.operands[..] {
        [] => Err(Failure::Usage(usage, "missing pool argument".into())),
        [name] => {
            if let Err(failure) = call.pool(name) {
                if name.contains('/') {
                    call.note(&failure);
                    return Err(Failure::Told("use 'zfs destroy' to destroy a dataset".into()));
                }
                return Err(failure);
            }
            call.world.destroy(name);
            Ok(())
        }
        _ => Err(Failure::Usage(usage, "too many arguments".into())),
    }
}

pub fn export(call: &mut Call, words: &[String]) -> Outcome {
    let usage = Usage::Zpool(ZpoolCommand::Export);
    let options = call.options(words, "afF", usage)?;
    if options.has('a') != options.operands.is_empty() {
        let reason = if options.has('a') { "too many arguments" } else { "missing pool argument" };
        return Err(Failure::Usage(usage, reason.into()));
    }
    let pools = options.operands.iter().map(|name| call.pool(name)).collect::<Outcome<Vec<_>>>()?;
    let pools = if options.has('a') { call.world.pools() } else { pools };
    for pool in pools {
        call.log(&pool);
        pool.run(|host| host.unmount_all())?;
        pool.set_exported(true);
    }
    Ok(())
}

pub fn import(call: &mut Call, words: &[String]) -> Outcome {
    let usage = Usage::Zpool(ZpoolCommand::Import);
    let options = call.long_options(words, ":ac:d:DEfFlmnNo:R:stT:VX", &[("rewind-to-checkpoint", 'E')], usage)?;
    for word in options.arguments('o').filter_map(|word| word.split_once('=')) {
        if PoolProperty::named(word.0).is_none() {
            // OpenZFS ends with 0 there.
            return Err(Failure::ToldWith(Status::Done, format!("property '{}' is not a valid pool property", word.0)));
        }
    }
    let exported = call.world.exported_pools();
    let (names, new) = match &options.operands[..] {
        [_, ..] if options.has('a') => return Err(Failure::Usage(usage, "too many arguments".into())),
        [] if options.has('a') => (exported.iter().map(|pool| pool.name.clone()).collect::<Vec<_>>(), None),
        [] => return show_importable(call),
        [name] => (vec![name.clone()], None),
        [name, new] => (vec![name.clone()], Some(new.clone())),
        _ => return Err(Failure::Usage(usage, "too many arguments".into())),
    };
    for name in names {
        let by_guid = |host_name: &str, guid: u64| host_name == name || guid.to_string() == name;
        let mut found = None;
        for pool in &exported {
            let guid = pool.run(|host| host.facts.guid)?;
            if by_guid(&pool.name, guid) {
                found = Some(pool);
            }
        }
        let Some(pool) = found else {
            if call.world.pool_of(&name).is_some() {
                let head = format!("cannot import '{name}': a pool with that name already exists");
                return Err(Failure::Told(format!("{head}\nuse the form 'zpool import <pool | id> <newpool>' to give it a new name")));
            }
            return Err(Failure::Cannot(Action::Import(name), Reason::Text("no such pool available".into())));
        };
        take_in(call, &pool.name, new.as_deref(), &options)?;
    }
    Ok(())
}

/// Takes an exported pool in again, by a new name where one is given.
fn take_in(call: &mut Call, name: &str, new: Option<&str>, options: &Options) -> Outcome {
    let action = || Action::Import(name.to_owned());
    let now = new.unwrap_or(name).to_owned();
    if let Some(new) = new.filter(|new| *new != name) {
        check_new_name(new).trying(action)?;
        if !call.world.rename(name, new) {
            return Err(Failure::Cannot(action(), Reason::Text("a pool with that name already exists".into())));
        }
    }
    let Some(pool) = call.world.any_pool(&now) else { return Err(Failure::Cannot(action(), Reason::Text("no such pool available".into()))) };
    let is_mounted = !options.has('N');
    let altroot = options.argument('R').map(str::to_owned);
    // Words without an equals sign are options of mounts.
    let given = settings(options.arguments('o').filter(|word| word.contains('=')))?;
    pool.run(move |host| {
        host.rename_pool(&now);
        host.facts.properties.remove("readonly");
        let known = given.into_iter().filter_map(|it| PoolProperty::named(&it.property).map(|property| (property.to_string(), it.value)));
        host.facts.properties.extend(known);
        match altroot {
            Some(folder) => host.facts.properties.insert("altroot".into(), folder),
            None => host.facts.properties.remove("altroot"),
        };
        if is_mounted {
            let _ = host.mount_all();
        }
    })?;
    pool.set_exported(false);
    call.log(&pool);
    Ok(())
}

fn show_importable(call: &mut Call) -> Outcome {
    let exported = call.world.exported_pools();
    if exported.is_empty() {
        return Err(Failure::Told("no pools available to import".into()));
    }
    for pool in exported {
        let facts = pool.run(|host| host.facts.clone())?;
        let name = &pool.name;
        call.output.line(&format!("   pool: {name}\n     id: {}\n  state: ONLINE", facts.guid));
        call.output.line(" action: The pool can be imported using its name or numeric identifier.");
        call.output.line(" config:\n");
        call.output.text(&vdev::layout(name, &facts.vdevs, |line, state, width| format!("\t{line:<width$}  {state}\n")));
    }
    Ok(())
}

#[cfg(test)]
mod tests {
    use super::*;

    #[test]
    fn names_of_pools_are_narrower_than_those_of_datasets() {
        assert_eq!(check_new_name("tank"), Ok(()));
        for bad in ["", "1tank", "mirror1", "log", "a/b", "a@b", "draidx"] {
            assert!(check_new_name(bad).is_err(), "{bad}");
        }
        assert_eq!(check_new_name("logs"), Ok(()));
    }
}
