//! What is looked at before a step is received: by the command first, then by what stands for the kernel.

use super::format::Step;
use super::receive::{exists, reason_of, Manner, Naming};
use super::respell::EMPTY;
use crate::dataset::{Dataset, Kind};
use crate::failure::{Action, Failure, Outcome, Reason};
use crate::host::Host;
use crate::layer::Refusal;
use crate::name;
use crate::property::{Native, Property};
use crate::setting::{check, Checked, Setting};

impl Host {
    /// What the command looks at, also with `-n`: the origin, where the stream goes, and what is there.
    pub fn check_receive(&mut self, manner: &Manner, destination: &str, step: &Step) -> Outcome {
        let base = name::base(destination);
        if step.is_clone && manner.origin.is_none() {
            self.origin_of(manner, destination, step)?;
        }
        match self.tree.has(base) {
            true if step.wants_new() => self.check_overwrite(manner, base, step),
            true => Ok(()),
            false => self.check_above(manner, base, step),
        }
    }

    /// The snapshot that a clone is of: the one that was named, or that which has the source's guid.
    pub fn origin_of(&self, manner: &Manner, destination: &str, step: &Step) -> Outcome<Dataset> {
        let Some(named) = &manner.origin else {
            let missing = || Reason::Text(format!("local origin for clone {destination} does not exist"));
            let found = self.by_guid(name::base(destination), step.from_guid);
            return found.ok_or_else(|| Failure::Cannot(Action::Receive, missing()));
        };
        let fail = |reason| Err(Failure::Cannot(step.action(), reason));
        match self.tree.find(named) {
            Some(origin) if origin.snapshot().is_some() => Ok(origin),
            Some(_) => fail(unfit(manner)),
            None => fail(Reason::Text("Invalid cross-device link".into())),
        }
    }

    /// What isn't there is made below a file system, by a stream that makes one.
    fn check_above(&mut self, manner: &Manner, base: &str, step: &Step) -> Outcome {
        let fail = |reason: String| Err(Failure::Cannot(step.action(), Reason::Text(reason)));
        let Some(above) = name::parent(base).filter(|_| step.wants_new()) else {
            return fail(format!("destination '{base}' does not exist"));
        };
        match self.tree.get(above) {
            None if manner.naming == Naming::AllButPool => Ok(()),
            None => {
                let text = format!("cannot open '{above}': dataset does not exist\n{}: unable to restore to destination", step.action());
                Err(Failure::Told(text))
            }
            Some(parent) if parent.kind == Kind::Volume => fail(format!("parent '{above}' is not a filesystem")),
            Some(_) => Ok(()),
        }
    }

    /// A stream of a new file system over one that is there: it has to be forced, and the file system empty of snapshots.
    fn check_overwrite(&mut self, manner: &Manner, base: &str, step: &Step) -> Outcome {
        let fail = |reason: String| Err(Failure::Cannot(step.action(), Reason::Text(reason)));
        if !manner.is_forced {
            return fail(format!("destination '{base}' exists\nmust specify -F to overwrite it"));
        }
        if let Some(snapshot) = self.tree.snapshots(base).first() {
            return fail(format!("destination has snapshots (eg. {})\nmust destroy them to overwrite it", snapshot.name));
        }
        let is_volume = step.kind == Kind::Volume;
        if is_volume && !base.contains('/') {
            return fail(format!("destination {base} is the root dataset\ncannot overwrite with a ZVOL"));
        }
        if let Some(child) = self.tree.children(base).first().filter(|_| is_volume) {
            return fail(format!("destination has children (eg. {child})\ncannot overwrite with a ZVOL"));
        }
        if self.origin(base).is_some() {
            return fail(format!("destination '{base}' is a clone\nmust destroy it to overwrite it"));
        }
        self.check_unused(base, &manner.folder)
    }

    /// What a kernel looks at before it takes the blocks. Whether the file system has the snapshot already: then it is passed over.
    pub fn check_begin(&mut self, manner: &Manner, destination: &str, step: &Step) -> Outcome<bool> {
        let base = name::base(destination);
        let Some(file_system) = self.tree.get(base).filter(|_| step.resumes_at.is_none()) else { return Ok(false) };
        let fail = |reason| Err(Failure::Cannot(step.action(), reason));
        if step.is_clone {
            return fail(unfit(manner));
        }
        if file_system.partial.is_some() {
            return fail(Reason::Text(format!("destination {base} contains partially-complete state from \"zfs receive -s\".")));
        }
        if self.tree.has(destination) {
            // Its name counts first, and then its guid under whatever name.
            let is_there = file_system.snapshots.by_guid(step.to_guid).is_some();
            return if is_there { Ok(true) } else { Err(exists(destination)) };
        }
        if step.from_guid == 0 {
            return Ok(false);
        }
        match self.check_source(manner, base, step) {
            Ok(()) => Ok(false),
            Err(refusal) => fail(reason_of(base, refusal)),
        }
    }

    /// The snapshot of a guid that a file system has, and its newest one.
    pub fn source_and_newest(&self, base: &str, guid: u64) -> Option<(Dataset, Dataset)> {
        let file_system = self.tree.get(base)?;
        let dataset = |it| self.tree.snapshot_of(base, file_system, it);
        Some((dataset(file_system.snapshots.by_guid(guid)?), dataset(file_system.snapshots.iter().next_back()?)))
    }

    /// The source is here, and nothing has changed since unless that is forced.
    fn check_source(&mut self, manner: &Manner, base: &str, step: &Step) -> Result<(), Refusal> {
        let (source, newest) = self.source_and_newest(base, step.from_guid).ok_or(Refusal::WrongSource)?;
        match newest {
            _ if newest.name == source.name || manner.is_forced => Ok(()),
            newest if self.layer.stream_size(&newest.path, Some(&source.path))? > EMPTY => Err(Refusal::Modified),
            _ => Ok(()),
        }
    }
}

/// A stream that can't be received so, as one of a clone into a file system that is there.
fn unfit(manner: &Manner) -> Reason {
    Reason::Text(if manner.is_resumable { "kernel modules must be upgraded to receive this stream." } else { "invalid backup stream" }.into())
}

/// The properties of `-o` and `-x` are known, and such that a receive may set. An origin is no property here.
pub fn check_overrides(settings: &[Setting], excluded: &[String]) -> Result<(), Reason> {
    for name in settings.iter().map(|setting| &setting.property).chain(excluded).filter(|name| *name != Native::Origin.name()) {
        let property = Property::named(name).ok_or_else(|| Reason::NoProperty(name.clone()))?;
        let is_fixed = |native: Native| native.is_read_only() || matches!(native, Native::VolSize | Native::Version);
        if matches!(property, Property::Native(native) if is_fixed(native)) {
            return Err(Reason::NoProperty(name.clone()));
        }
    }
    Ok(())
}

/// The values of `-o` are such that the properties take.
pub fn check_values(settings: &[Setting]) -> Result<(), Reason> {
    settings.iter().try_for_each(|setting| check_value(setting).map(drop))
}

/// A value has to fit where it fits any kind.
fn check_value(setting: &Setting) -> Result<Checked, Reason> {
    match check(setting, Kind::FileSystem, true) {
        Err(Reason::NotOfKind(_)) => check(setting, Kind::Volume, true),
        other => other,
    }
}

#[cfg(test)]
mod tests {
    use super::*;
    use crate::dataset::Values;
    use crate::host::tests::{host, make, snapshot};

    fn step(to_guid: u64, from_guid: u64, is_clone: bool) -> Step {
        Step {
            to_name: "sent@s".into(),
            to_guid,
            from_guid,
            is_clone,
            creation: 0,
            kind: Kind::FileSystem,
            volume: Values::new(),
            properties: None,
            snapshot_properties: Values::new(),
            holds: Vec::new(),
            resumes_at: None,
        }
    }

    /// A file system with two snapshots that are the same, and one that has more: their guids.
    fn prepared() -> (Host, [u64; 3]) {
        let mut host = host();
        make(&mut host, "tank/a");
        ["tank/a@1", "tank/a@2"].iter().for_each(|name| snapshot(&mut host, name));
        let path = host.open("tank/a").unwrap().path;
        host.layer.write(&path, 0, 0, &[1]).unwrap();
        snapshot(&mut host, "tank/a@3");
        let guids = ["tank/a@1", "tank/a@2", "tank/a@3"].map(|name| host.open(name).unwrap().guid());
        (host, guids)
    }

    fn begin(host: &mut Host, is_forced: bool, destination: &str, step: &Step) -> Result<bool, String> {
        let manner = Manner { target: destination.into(), is_forced, ..Manner::default() };
        host.check_receive(&manner, destination, step).map_err(|failure| failure.to_string())?;
        host.check_begin(&manner, destination, step).map_err(|failure| failure.to_string())
    }

    #[test]
    fn a_snapshot_is_there_under_whatever_name() {
        let (mut host, [one, two, three]) = prepared();
        for is_forced in [false, true] {
            for destination in ["tank/a@1", "tank/a@2", "tank/a@3"] {
                assert_eq!(begin(&mut host, is_forced, destination, &step(two, one, false)), Ok(true));
                let text = format!("cannot restore to {destination}: destination already exists\n");
                assert_eq!(begin(&mut host, is_forced, destination, &step(7, three, false)), Err(text));
            }
        }
        assert_eq!(begin(&mut host, false, "tank/a@4", &step(7, three, false)), Ok(false));
    }

    #[test]
    fn nothing_has_changed_since_the_source_unless_by_force() {
        let (mut host, [one, two, three]) = prepared();
        let changed = "cannot receive incremental stream: destination tank/a has been modified\nsince most recent snapshot\n".to_owned();
        assert_eq!(begin(&mut host, false, "tank/a@4", &step(7, two, false)), Err(changed.clone()));
        assert_eq!(begin(&mut host, true, "tank/a@4", &step(7, two, false)), Ok(false));
        snapshot(&mut host, "tank/a@same");
        assert_eq!(begin(&mut host, false, "tank/a@4", &step(7, three, false)), Ok(false));
        assert_eq!(begin(&mut host, false, "tank/a@4", &step(7, one, false)), Err(changed));
        let no_source = "cannot receive incremental stream: most recent snapshot of tank/a does not\nmatch incremental source\n".to_owned();
        assert_eq!(begin(&mut host, true, "tank/a@4", &step(7, 8, false)), Err(no_source));
    }

    #[test]
    fn the_origin_of_a_clone_comes_before_its_place() {
        let (mut host, [one, ..]) = prepared();
        make(&mut host, "tank/b");
        for destination in ["tank/none/x@s", "tank/b@s", "tank/x@s"] {
            let text = format!("cannot receive: local origin for clone {destination} does not exist\n");
            assert_eq!(begin(&mut host, false, destination, &step(7, 8, true)), Err(text));
        }
        let no_parent = "cannot open 'tank/none': dataset does not exist\ncannot receive new filesystem stream: unable to restore to destination\n";
        assert_eq!(begin(&mut host, false, "tank/none/x@s", &step(7, one, true)), Err(no_parent.into()));
        assert_eq!(begin(&mut host, false, "tank/x@s", &step(7, one, true)), Ok(false));
        let over = begin(&mut host, true, "tank/b@s", &step(7, one, true));
        assert_eq!(over, Err("cannot receive new filesystem stream: invalid backup stream\n".into()));
    }
}
