//! What is mounted, which is a name: nothing is. A change of a property mounts and unmounts as libzfs does it.

use crate::dataset::{FileSystem, Kind};
use crate::failure::{Failure, Outcome};
use crate::host::Host;
use crate::name;
use crate::property::{Native, Property};
use crate::reading::own;
use std::io::ErrorKind;
use std::path::Path;

/// What a change of a property may mount or unmount.
#[derive(Clone, Debug)]
pub struct Affected {
    property: Native,
    /// The file systems that have the property's value from the one that is changed, that one first; and which of them were mounted.
    names: Vec<(String, bool)>,
    /// Whether the mountpoint was none or legacy, so that what gets one is mounted.
    was_off: bool,
}

impl Host {
    /// Mounts a file system that has a mountpoint, unless `canmount` is off: `mounted` says yes then. What OpenZFS says where that can't be.
    pub fn mount(&mut self, name: &str) -> Result<(), String> {
        let place = Some(self.mount_point(name).0).filter(|place| !is_off(place) && self.can_mount(name) != "off");
        let fault = place.as_ref().and_then(|place| fault_of(name, place));
        if let Some(file_system) = self.tree.edit(name) {
            file_system.is_mounted = place.is_some() && fault.is_none() && file_system.kind == Kind::FileSystem;
            file_system.mounted_at = None;
        }
        fault.map_or(Ok(()), Err)
    }

    /// Mounts a new file system, if that is to be without being asked for.
    pub fn mount_new(&mut self, name: &str) -> Result<(), String> {
        let is_volume = self.tree.get(name).is_some_and(|it| it.kind == Kind::Volume);
        if is_volume || self.can_mount(name) != "on" { Ok(()) } else { self.mount(name) }
    }

    /// Mounts file systems that were made. What OpenZFS says of those that can't be.
    pub fn mount_made(&mut self, names: &[String]) -> Vec<String> {
        let told = names.iter().filter_map(|name| self.tree.has(name).then(|| self.mount_new(name).err())?).collect();
        self.settle_names();
        told
    }

    /// Mounts all that isn't mounted. What OpenZFS says of those that can't be.
    pub fn mount_all(&mut self) -> Vec<String> {
        let names: Vec<String> = self.tree.iter().filter(|(_, it)| !it.is_mounted).map(|(name, _)| name.clone()).collect();
        let told = names.iter().filter_map(|name| self.mount_new(name).err()).collect();
        self.settle_names();
        told
    }

    pub fn unmount(&mut self, name: &str) {
        if let Some(file_system) = self.tree.edit(name) {
            file_system.is_mounted = false;
            file_system.mounted_at = None;
        }
    }

    pub fn unmount_all(&mut self) {
        let names: Vec<String> = self.tree.iter().map(|(name, _)| name.clone()).collect();
        names.iter().for_each(|name| self.unmount(name));
        self.settle_names();
    }

    fn can_mount(&self, name: &str) -> String {
        self.tree.get(name).and_then(|it| it.local.get("canmount").cloned()).unwrap_or_else(|| "on".into())
    }

    /// What a change of this property of a file system may mount or unmount, as it is before the change; none where it is nothing. `canmount` does
    /// so where it becomes off.
    pub fn affected(&mut self, name: &str, property: &Property) -> Option<Affected> {
        let Property::Native(property @ (Native::MountPoint | Native::CanMount | Native::ShareNfs | Native::ShareSmb)) = *property else {
            return None;
        };
        self.tree.get(name).filter(|it| it.kind == Kind::FileSystem && !name.contains('@'))?;
        let names = if property == Native::CanMount { vec![name.to_owned()] } else { self.inheriting(name, property) };
        let is_mounted = |name: &String| self.tree.get(name).is_some_and(|it| it.is_mounted);
        let names = names.into_iter().map(|name| (name.clone(), is_mounted(&name))).collect();
        let was_off = property == Native::MountPoint && is_off(&self.mount_point(name).0) && self.can_mount(name) != "noauto";
        Some(Affected { property, names, was_off })
    }

    /// A file system and those below that have the property, or another of a share, from it.
    fn inheriting(&self, name: &str, property: Native) -> Vec<String> {
        let watched = if property == Native::MountPoint { &[Native::MountPoint][..] } else { &[Native::ShareNfs, Native::ShareSmb] };
        let has = |it: &FileSystem, property: &str| own(&it.local, &it.received, &it.hidden, property).is_some();
        let has_own = |name: &str| self.tree.get(name).is_none_or(|it| watched.iter().all(|one| has(it, one.name())));
        let mut names = vec![name.to_owned()];
        let mut ends: Vec<String> = Vec::new();
        for below in self.tree.below(name) {
            if ends.iter().any(|end| name::is_below(&below, end)) {
                continue;
            }
            if has_own(&below) { ends.push(below) } else { names.push(below) }
        }
        names
    }

    /// A client that stands in what a change unmounts keeps it busy; the deepest is told.
    pub fn check_change(&self, affected: &Affected, folder: &str) -> Outcome {
        let unmounts = matches!(affected.property, Native::MountPoint | Native::CanMount);
        let mounted = affected.names.iter().rev().filter(|(_, was_mounted)| unmounts && *was_mounted);
        match mounted.filter_map(|(name, _)| self.settled_place(name)).find(|place| folder == place || name::is_below(folder, place)) {
            Some(place) => Err(Failure::Told(format!("cannot unmount '{place}': pool or dataset is busy"))),
            None => Ok(()),
        }
    }

    /// Mounts and unmounts after a change. What OpenZFS says of those that can't be mounted.
    pub fn settle_mounts(&mut self, affected: &Affected) -> Vec<String> {
        let mut told = Vec::new();
        for (name, was_mounted) in &affected.names {
            let is_on = self.can_mount(name) == "on";
            let wants = match affected.property {
                Native::MountPoint => *was_mounted || is_on && (affected.was_off || self.is_shared(name)),
                Native::CanMount => *was_mounted,
                _ => !was_mounted && is_on && self.is_shared(name),
            };
            if wants {
                told.extend(self.mount(name).err());
            }
        }
        told
    }

    fn is_shared(&mut self, name: &str) -> bool {
        let Some(dataset) = self.tree.whole(name) else { return false };
        [Native::ShareNfs, Native::ShareSmb].into_iter().any(|native| {
            let value = self.value(&dataset, &Property::Native(native));
            value.is_some_and(|value| value.text != "off")
        })
    }
}

fn is_off(place: &str) -> bool {
    matches!(place, "none" | "legacy")
}

/// What OpenZFS says where nothing can be mounted at a place, as it or what it would lie in is no folder.
fn fault_of(name: &str, place: &str) -> Option<String> {
    let path = Path::new(place);
    let said = |kind: ErrorKind| if kind == ErrorKind::NotFound { "No such file or directory" } else { "Not a directory" };
    if path.symlink_metadata().is_ok() {
        return match path.metadata() {
            Ok(there) if there.is_dir() => None,
            Ok(_) => Some(format!("cannot mount '{name}': Not a directory")),
            Err(error) => Some(format!("cannot mount '{name}': {}", said(error.kind()))),
        };
    }
    let above = path.ancestors().skip(1).find(|above| above.symlink_metadata().is_ok())?;
    (!above.is_dir()).then(|| format!("cannot mount '{place}': failed to create mountpoint: Not a directory"))
}

#[cfg(test)]
mod tests {
    use super::*;
    use crate::host::tests::{host, make};
    use crate::setting::Checked;

    /// Sets a property as `zfs set` does.
    fn set(host: &mut Host, name: &str, native: Native, value: &str) -> Vec<String> {
        let affected = host.affected(name, &Property::Native(native)).filter(|_| native != Native::CanMount || value == "off");
        host.set(name, &Checked::Native(native, value.into())).unwrap();
        affected.map_or_else(Vec::new, |affected| host.settle_mounts(&affected))
    }

    fn mounted(host: &Host) -> Vec<String> {
        host.mounted().into_iter().map(|(name, _)| name).collect()
    }

    fn prepared() -> Host {
        let mut host = host();
        for name in ["tank/a", "tank/a/b", "tank/a/own"] {
            make(&mut host, name);
        }
        set(&mut host, "tank/a/own", Native::MountPoint, "/elsewhere");
        host
    }

    #[test]
    fn what_inherits_a_mountpoint_is_mounted_with_it() {
        let mut host = prepared();
        assert!(mounted(&host).is_empty());
        set(&mut host, "tank/a", Native::MountPoint, "none");
        assert!(set(&mut host, "tank/a", Native::MountPoint, "/nowhere/a").is_empty());
        assert_eq!(host.mounted(), [("tank/a".into(), "/nowhere/a".into()), ("tank/a/b".into(), "/nowhere/a/b".into())]);
        set(&mut host, "tank/a", Native::MountPoint, "legacy");
        assert!(mounted(&host).is_empty());
    }

    #[test]
    fn a_change_leaves_mounted_what_was_to_be_mounted_by_hand() {
        let mut host = prepared();
        set(&mut host, "tank/a", Native::CanMount, "noauto");
        host.mount("tank/a").unwrap();
        set(&mut host, "tank/a", Native::MountPoint, "/nowhere/x");
        assert_eq!(mounted(&host), ["tank/a"]);
        assert!(host.mount_all().is_empty());
        assert_eq!(mounted(&host), ["tank", "tank/a", "tank/a/b", "tank/a/own"]);
        set(&mut host, "tank/a", Native::CanMount, "off");
        assert_eq!(mounted(&host), ["tank", "tank/a/b", "tank/a/own"]);
        set(&mut host, "tank/a", Native::CanMount, "on");
        assert_eq!(mounted(&host), ["tank", "tank/a/b", "tank/a/own"]);
    }

    #[test]
    fn a_share_is_mounted_unless_its_mountpoint_is_legacy() {
        let mut host = prepared();
        set(&mut host, "tank/a/b", Native::MountPoint, "legacy");
        assert!(set(&mut host, "tank/a", Native::ShareNfs, "").is_empty());
        assert_eq!(mounted(&host), ["tank/a", "tank/a/own"]);
        host.unmount_all();
        set(&mut host, "tank/a", Native::ShareNfs, "off");
        assert!(mounted(&host).is_empty());
    }

    #[test]
    fn a_file_is_no_mountpoint() {
        let mut host = prepared();
        let told = set(&mut host, "tank/a", Native::MountPoint, "/etc/passwd");
        assert!(told.is_empty() && mounted(&host).is_empty());
        assert_eq!(host.mount("tank/a").unwrap_err(), "cannot mount 'tank/a': Not a directory");
        assert_eq!(host.mount("tank/a/b").unwrap_err(), "cannot mount '/etc/passwd/b': failed to create mountpoint: Not a directory");
        assert_eq!(set(&mut host, "tank/a", Native::ShareNfs, "on").len(), 2);
        assert!(host.mount_new("tank/a/own").is_ok());
    }
}
