//! `zfs mount` and `unmount`: what they would list. Nothing is mounted.

use super::walk;
use crate::call::Call;
use crate::dataset::Dataset;
use crate::failure::{Action, Failure, Outcome, Reason};
use crate::host::Host;
use crate::options::Options;
use crate::property::{Kinds, Native, Property};
use crate::usage::{Usage, ZfsCommand};
use crate::world::PoolThread;
use std::path::Path;
use std::sync::Arc;

const MOUNT: Usage = Usage::Zfs(ZfsCommand::Mount);
const UNMOUNT: Usage = Usage::Zfs(ZfsCommand::Unmount);

/// The pools that `-a` goes through.
fn all_pools(call: &Call) -> Vec<Arc<PoolThread>> {
    let only = call.request.restricted_to.clone();
    call.world.pools().into_iter().filter(|pool| only.as_ref().is_none_or(|name| *name == pool.name)).collect()
}

pub fn mount(call: &mut Call, words: &[String]) -> Outcome {
    let options = call.options(words, ":aflo:Ov", MOUNT)?;
    if options.has('a') {
        if !options.operands.is_empty() {
            return Err(Failure::Usage(MOUNT, "too many arguments".into()));
        }
        return mount_all(call);
    }
    let name = match &options.operands[..] {
        [] if !options.found.is_empty() => return Err(Failure::Usage(MOUNT, "missing filesystem argument".into())),
        [] => return list(call),
        [name] => name.clone(),
        _ => return Err(Failure::Usage(MOUNT, "too many arguments".into())),
    };
    let pool = walk::open(call, &name, Kinds::FILE_SYSTEM)?;
    let given = options.argument('o').unwrap_or_default().to_owned();
    pool.run(move |host| mount_one(host, &name, &given))?
}

fn mount_all(call: &Call) -> Outcome {
    let mut told = Vec::new();
    for pool in all_pools(call) {
        told.extend(pool.run(Host::mount_all)?);
    }
    if told.is_empty() { Ok(()) } else { Err(Failure::Several(told.into_iter().map(Failure::Told).collect())) }
}

/// Options of a mount are properties for as long as it is mounted.
fn mount_one(host: &mut Host, name: &str, options: &str) -> Outcome {
    let fail = |reason: &str| Err(Failure::Cannot(Action::Mount(name.to_owned()), Reason::Text(reason.into())));
    let base = host.open(name)?.base;
    let is_remount = options.split(',').any(|option| option == "remount");
    let point = host.mount_point(name).0;
    match point.as_str() {
        "none" => return fail("no mountpoint set"),
        "legacy" => {
            let text = format!("cannot mount '{name}': legacy mountpoint\nuse mount(8) to mount this filesystem");
            return Err(Failure::Told(text));
        }
        _ => {}
    }
    if base.local.get("canmount").is_some_and(|value| value == "off") {
        return fail("'canmount' property is set to 'off'");
    }
    if base.is_mounted && !is_remount {
        return fail("filesystem already mounted");
    }
    host.mount(name).map_err(Failure::Told)?;
    host.set_mounted(name, true, options);
    Ok(())
}

impl Host {
    /// Says whether a file system is mounted, and with which options.
    fn set_mounted(&mut self, name: &str, is_mounted: bool, options: &str) {
        if let Some(file_system) = self.tree.edit(name) {
            file_system.is_mounted = is_mounted;
            file_system.mounted_at = None;
            file_system.mount_options = options.split(',').filter(|option| !option.is_empty()).map(str::to_owned).collect();
        }
        self.settle_names();
    }

    /// Says where a file system stays mounted, whatever its mountpoint is.
    pub fn leave_mounted(&mut self, name: &str, place: String) {
        if let Some(file_system) = self.tree.edit(name) {
            file_system.mounted_at = Some(place);
        }
    }
}

fn list(call: &mut Call) -> Outcome {
    for pool in call.world.pools() {
        for (name, place) in pool.run(|host| host.mounted())? {
            call.output.line(&format!("{name:<30}  {place}"));
        }
    }
    Ok(())
}

pub fn unmount(call: &mut Call, words: &[String]) -> Outcome {
    let options = call.options(words, "afu", UNMOUNT)?;
    if options.has('a') {
        if !options.operands.is_empty() {
            return Err(Failure::Usage(UNMOUNT, "too many arguments".into()));
        }
        return all_pools(call).iter().try_for_each(|pool| pool.run(Host::unmount_all));
    }
    let name = match &options.operands[..] {
        [] => return Err(Failure::Usage(UNMOUNT, "missing filesystem argument".into())),
        [name] => name.clone(),
        _ => return Err(Failure::Usage(UNMOUNT, "too many arguments".into())),
    };
    if name.starts_with('/') {
        return unmount_path(call, &name);
    }
    let pool = walk::open(call, &name, Kinds::FILE_SYSTEM)?;
    let folder = call.request.folder.clone();
    pool.run(move |host| {
        let base = host.open(&name)?.base;
        let fail = |reason: &str| Err(Failure::Cannot(Action::Unmount(name.clone()), Reason::Text(reason.into())));
        if host.mount_point(&name).0 == "legacy" {
            return Err(Failure::Told(format!("cannot unmount '{name}': legacy mountpoint\nuse umount(8) to unmount this filesystem")));
        }
        if !base.is_mounted {
            return fail("not currently mounted");
        }
        host.check_unused(&name, &folder)?;
        host.set_mounted(&name, false, "");
        Ok(())
    })?
}

fn unmount_path(call: &mut Call, path: &str) -> Outcome {
    for pool in call.world.pools() {
        let path = path.trim_end_matches('/').to_owned();
        let folder = call.request.folder.clone();
        let is_done = pool.run(move |host| {
            let Some((name, _)) = host.mounted().into_iter().find(|(_, place)| *place == path) else { return Ok(false) };
            host.check_unused(&name, &folder)?;
            host.set_mounted(&name, false, "");
            Ok(true)
        })??;
        if is_done {
            return Ok(());
        }
    }
    if Path::new(path).exists() {
        return Err(Failure::Told(format!("cannot unmount '{path}': not a ZFS filesystem")));
    }
    // OpenZFS lacks the blank too.
    let missing = "No such file or directory";
    Err(Failure::Told(format!("cannot open '{path}': {missing}\nwarning: {path} not in/proc/self/mounts\n{path}: {missing}")))
}

pub fn share(call: &mut Call, words: &[String]) -> Outcome {
    let usage = Usage::Zfs(ZfsCommand::Share);
    let options = call.options(words, "al", usage)?;
    if options.has('a') {
        return check_protocol(&options, usage);
    }
    let name = match &options.operands[..] {
        [] => return Err(Failure::Usage(usage, "missing filesystem argument (specify -a for all)".into())),
        [name] => name.clone(),
        _ => return Err(Failure::Usage(usage, "too many arguments".into())),
    };
    let pool = walk::open(call, &name, Kinds::FILE_SYSTEM)?;
    pool.run(move |host| share_one(host, &name))?
}

/// What stands behind `-a`.
fn check_protocol(options: &Options, usage: Usage) -> Outcome {
    match &options.operands[..] {
        [] => Ok(()),
        [word] if matches!(word.as_str(), "nfs" | "smb") => Ok(()),
        [_] => Err(Failure::Usage(usage, "share type must be 'nfs' or 'smb'".into())),
        _ => Err(Failure::Usage(usage, "too many arguments".into())),
    }
}

/// Nothing is shared; what can't be says so.
fn share_one(host: &mut Host, name: &str) -> Outcome {
    let told = |text: String| Err(Failure::Told(text));
    let dataset = host.open(name)?;
    if is_unshared(host, &dataset) {
        let way = "use exports(5) or smb.conf(5) to share this filesystem, or set the sharenfs or sharesmb property";
        return told(format!("cannot share '{name}': legacy share\n{way}"));
    }
    let is_never = host.value(&dataset, &Property::Native(Native::CanMount)).is_some_and(|value| value.text == "off");
    match host.mount_point(name).0.as_str() {
        "legacy" => told(format!("cannot share '{name}': legacy mountpoint\nuse share(8) to share this filesystem")),
        "none" => told(format!("cannot share '{name}': no mountpoint set")),
        _ if is_never => told(format!("cannot share '{name}': 'canmount' property is set to 'off'")),
        _ => Ok(()),
    }
}

/// Nothing is shared, so nothing is to be unshared.
pub fn unshare(call: &mut Call, words: &[String]) -> Outcome {
    let usage = Usage::Zfs(ZfsCommand::Unshare);
    let options = call.options(words, "afu", usage)?;
    if options.has('a') {
        return check_protocol(&options, usage);
    }
    let name = match &options.operands[..] {
        [] => return Err(Failure::Usage(usage, "missing filesystem argument".into())),
        [name] => name.clone(),
        _ => return Err(Failure::Usage(usage, "too many arguments".into())),
    };
    if name.starts_with('/') {
        let missing = if Path::new(&name).exists() { String::new() } else { format!("cannot open '{name}': No such file or directory\n") };
        return Err(Failure::Told(format!("{missing}cannot unshare '{name}': not currently mounted")));
    }
    let pool = walk::open(call, &name, Kinds::FILE_SYSTEM)?;
    pool.run(move |host| {
        let dataset = host.open(&name)?;
        let text = if is_unshared(host, &dataset) {
            format!("cannot unshare '{name}': legacy share\nuse exports(5) or smb.conf(5) to unshare this filesystem")
        } else {
            format!("cannot unshare '{name}': not currently shared")
        };
        Err(Failure::Told(text))
    })?
}

/// Whether both ways to share a file system are off.
fn is_unshared(host: &mut Host, dataset: &Dataset) -> bool {
    let mut is_off = |native| host.value(dataset, &Property::Native(native)).is_none_or(|value| value.text == "off");
    is_off(Native::ShareNfs) && is_off(Native::ShareSmb)
}
