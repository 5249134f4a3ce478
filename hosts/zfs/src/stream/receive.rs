//! What a receive does to a pool: one step after another, each whole or not at all.

use super::format::{Begin, Listed, Step};
use super::respell::with_source;
use super::Partial;
use crate::dataset::Values;
use crate::failure::{Action, Failure, Outcome, Reason, Trying};
use crate::host::Host;
use crate::layer::Refusal;
use crate::name;
use crate::property::{Kinds, Native, Property};
use crate::setting::{check, Setting};
use std::collections::HashMap;
use std::rc::Rc;
use yuzgont::Receiving;

/// The objects of a file system of the layer.
const OBJECTS: u32 = 256;

/// How much of the sent name is put behind the name that was given.
#[derive(Clone, Copy, Debug, Default, PartialEq, Eq)]
pub enum Naming {
    /// What stands below the sent file system.
    #[default]
    Below,
    /// All but the pool (`-d`).
    AllButPool,
    /// The last component, and what stands below it (`-e`).
    Last,
}

/// What is asked of a receive.
#[derive(Clone, Debug, Default)]
pub struct Manner {
    /// The name that was given.
    pub target: String,
    pub naming: Naming,
    pub is_forced: bool,
    pub is_resumable: bool,
    pub is_dry: bool,
    pub is_verbose: bool,
    pub is_unmounted: bool,
    pub skips_holds: bool,
    pub settings: Vec<Setting>,
    pub excluded: Vec<String>,
    /// The snapshot that was named as the origin, whatever the stream says.
    pub origin: Option<String>,
    pub clock: i64,
    /// Where the client stands: a mountpoint with a client in it is busy.
    pub folder: String,
}

/// A step that came whole.
#[derive(Clone, Debug)]
pub struct Arrived {
    pub destination: String,
    pub step: Step,
    pub bytes: Rc<Vec<u8>>,
    pub is_top: bool,
    pub is_replication: bool,
}

/// What comes of a step that was received, beside its snapshot.
#[derive(Clone, Debug, Default, PartialEq, Eq)]
pub struct Received {
    /// What standard error is told of properties.
    pub told: Vec<String>,
    /// The same of what can't be mounted, which the command ends with status 1 for.
    pub unmounted: Vec<String>,
    /// Whether it made a file system, which is to be mounted once all steps have come.
    pub is_made: bool,
}

/// Where a sent snapshot goes.
pub fn destination(manner: &Manner, begin: &Begin, sent: &str) -> Outcome<String> {
    let receive = |text: &str| Failure::Cannot(Action::Receive, Reason::Text(text.into()));
    let top = if begin.is_replication { name::base(&begin.to_name) } else { name::base(sent) };
    let is_snapshot = manner.target.contains('@');
    let rest = match manner.naming {
        Naming::Last if is_snapshot => return Err(receive("invalid argument - snapshot not allowed with -e")),
        Naming::AllButPool if is_snapshot => return Err(receive("invalid argument - snapshot not allowed with -d")),
        Naming::Last => {
            let above = name::parent(top).map_or(0, |above| above.len() + 1);
            format!("/{}", &sent[above..])
        }
        Naming::AllButPool => sent[name::pool(sent).len()..].to_owned(),
        Naming::Below if !is_snapshot => sent[top.len()..].to_owned(),
        Naming::Below if begin.is_replication => return Err(receive("cannot specify snapshot name for multi-snapshot stream")),
        Naming::Below => String::new(),
    };
    let whole = manner.target.clone() + &rest;
    let is_valid = name::check(&whole, Kinds::SNAPSHOT, false).is_ok() && !name::is_too_long(&whole);
    if is_valid { Ok(whole) } else { Err(receive("invalid name")) }
}

impl Step {
    /// As it is received with an origin named: as a new file system, unless it is the rest of a cut step.
    pub fn onto(self, origin: Option<&str>) -> Step {
        let is_clone = self.is_clone || origin.is_some() && self.resumes_at.is_none();
        Step { is_clone, ..self }
    }

    pub fn wants_new(&self) -> bool {
        (self.from_guid == 0 || self.is_clone) && self.resumes_at.is_none()
    }

    /// What a receive of it is called.
    pub fn action(&self) -> Action {
        match self.resumes_at {
            Some(_) => Action::ReceiveResume,
            None if self.wants_new() => Action::ReceiveNew,
            None => Action::ReceiveIncremental,
        }
    }
}

impl Host {
    /// Receives a step: all of it, or nothing.
    pub fn receive_step(&mut self, manner: &Manner, arrived: &Arrived) -> Outcome<Received> {
        let base = name::base(&arrived.destination).to_owned();
        if arrived.step.resumes_at.is_none() {
            self.check_receive(manner, &arrived.destination, &arrived.step)?;
        }
        if self.check_begin(manner, &arrived.destination, &arrived.step)? {
            return Ok(Received::default());
        }
        let bytes = self.whole_body(&base, arrived)?;
        let is_new = if self.is_fresh(&base) || arrived.step.wants_new() {
            self.receive_new(manner, arrived, &base, &bytes)?
        } else {
            self.receive_onto(manner, arrived, &base, &bytes)?;
            false
        };
        self.take_up(manner, arrived, &base, is_new)
    }

    fn is_fresh(&self, base: &str) -> bool {
        self.tree.get(base).and_then(|it| it.partial.as_ref()).is_some_and(|partial| partial.is_fresh)
    }

    /// What came before a cut, and what comes now.
    fn whole_body(&self, base: &str, arrived: &Arrived) -> Outcome<Rc<Vec<u8>>> {
        let Some(at) = arrived.step.resumes_at else { return Ok(Rc::clone(&arrived.bytes)) };
        let partial = self.tree.get(base).and_then(|it| it.partial.as_ref());
        let fits = partial.filter(|it| it.to_guid == arrived.step.to_guid && it.bytes.len() as u64 == at);
        let partial = fits.ok_or_else(|| {
            Failure::Cannot(Action::ReceiveResume, Reason::Text("kernel modules must be upgraded to receive this stream.".into()))
        })?;
        let mut bytes = Vec::new();
        let size = partial.bytes.len() + arrived.bytes.len();
        bytes.try_reserve_exact(size).map_err(|_| Failure::Cannot(Action::ReceiveResume, Reason::NoMemory))?;
        bytes.extend_from_slice(&partial.bytes);
        bytes.extend_from_slice(&arrived.bytes);
        Ok(Rc::new(bytes))
    }

    /// Receives a stream in full, or from an origin. Whether the file system is new here too.
    fn receive_new(&mut self, manner: &Manner, arrived: &Arrived, base: &str, bytes: &[u8]) -> Outcome<bool> {
        let step = &arrived.step;
        let action = || step.action();
        let is_new = self.tree.get(base).is_none_or(|it| it.partial.is_some());
        if manner.naming == Naming::AllButPool {
            self.make_parents(base, manner.clock).trying(action)?;
        }
        if step.is_clone {
            self.receive_clone(manner, arrived, base, bytes)?;
        } else if self.tree.has(base) {
            self.replace(arrived, base, bytes)?;
        } else {
            let to = name::in_layer(&arrived.destination);
            self.layer.receive(&to, Receiving::Plain, bytes).map_err(|refusal| not_received(arrived, base, refusal))?;
            let file_system = self.new_file_system(step.kind, manner.clock);
            self.tree.insert(base.to_owned(), file_system);
        }
        if let Some(file_system) = self.tree.edit(base) {
            file_system.partial = None;
            file_system.kind = step.kind;
        }
        self.add_received(arrived).trying(action)?;
        Ok(is_new)
    }

    /// Receives a stream in full over a file system that is there: its contents and bookmarks go, and what is below it stays.
    fn replace(&mut self, arrived: &Arrived, base: &str, bytes: &[u8]) -> Outcome {
        let to = name::in_layer(&arrived.destination);
        let received = self.receive_over_refquota(base, |layer| layer.receive(&to, Receiving::Replace, bytes));
        received.map_err(|refusal| not_received(arrived, base, refusal))?;
        self.follow_layer();
        Ok(())
    }

    fn empty(&mut self, base: &str) -> Result<(), Refusal> {
        let path = name::in_layer(base);
        (0..OBJECTS).try_for_each(|object| self.layer.order(&format!("rmobj {path} {object}")))
    }

    /// Receives a stream whose source has the contents that the file system has now.
    fn receive_onto_now(&mut self, arrived: &Arrived, base: &str, bytes: &[u8]) -> Outcome {
        let action = || arrived.step.action();
        let now = self.make_own_snapshot(&name::in_layer(base)).trying(action)?;
        let guid = self.layer.get(&now, yuzgont::Property::Guid).trying(action)?;
        let bytes = with_source(bytes, guid).map_err(|refusal| not_received(arrived, base, refusal))?;
        let to = name::in_layer(&arrived.destination);
        self.layer.receive(&to, Receiving::Plain, &bytes).map_err(|refusal| not_received(arrived, base, refusal))?;
        self.layer.order(&format!("destroy {now}")).trying(action)
    }

    /// Receives as a clone of the origin, which is here by its guid or was named. A stream in full starts from an emptied clone.
    fn receive_clone(&mut self, manner: &Manner, arrived: &Arrived, base: &str, bytes: &[u8]) -> Outcome {
        let step = &arrived.step;
        let origin = self.origin_of(manner, &arrived.destination, step)?;
        if step.from_guid != 0 && step.from_guid != origin.guid() {
            return Err(not_received(arrived, base, Refusal::WrongSource));
        }
        // What a cut receive has left makes room for the clone.
        if self.tree.has(base) {
            self.layer.order(&format!("destroy {}", name::in_layer(base))).trying(|| step.action())?;
            self.tree.remove(base);
        }
        if step.from_guid == 0 {
            self.make_clone(&origin.name, base, manner.clock).trying(|| step.action())?;
            self.empty(base).trying(|| step.action())?;
            return self.receive_onto_now(arrived, base, bytes);
        }
        let to = name::in_layer(&arrived.destination);
        self.clone_by(&origin.name, base, manner.clock, |layer, origin| {
            layer.receive(&to, Receiving::Origin(origin), bytes).map_err(|refusal| reason_of(base, refusal))
        })
        .trying(|| step.action())
    }

    fn add_received(&mut self, arrived: &Arrived) -> Result<(), Refusal> {
        self.add_snapshot(&arrived.destination, arrived.step.creation, Values::new())
    }

    /// Receives an increment onto a file system. Snapshots newer than its source go by force, unless one is held or has a clone, or are such that
    /// have changed nothing.
    fn receive_onto(&mut self, manner: &Manner, arrived: &Arrived, base: &str, bytes: &[u8]) -> Outcome {
        let step = &arrived.step;
        let wrong = |refusal| match refusal {
            Refusal::HasClones | Refusal::Exists => exists(&arrived.destination),
            other => not_received(arrived, base, other),
        };
        let (source, newest) = self.source_and_newest(base, step.from_guid).ok_or_else(|| wrong(Refusal::WrongSource))?;
        let is_newest = newest.name == source.name;
        let is_respelled = !is_newest && !manner.is_forced;
        let respelled = is_respelled.then(|| with_source(bytes, newest.guid())).transpose().map_err(wrong)?;
        let mode = if manner.is_forced { Receiving::Past } else { Receiving::Plain };
        let (to, bytes) = (name::in_layer(&arrived.destination), respelled.as_deref().unwrap_or(bytes));
        self.receive_over_refquota(base, |layer| layer.receive(&to, mode, bytes)).map_err(wrong)?;
        if manner.is_forced && (!is_newest || !source.base.bookmarks.is_empty()) {
            self.follow_layer();
        }
        if let Some(file_system) = self.tree.edit(base) {
            file_system.partial = None;
        }
        self.add_received(arrived).trying(|| step.action())
    }

    /// Takes up what came beside the blocks: properties, volume sizes, holds; and what the command says of properties.
    fn take_up(&mut self, manner: &Manner, arrived: &Arrived, base: &str, is_new: bool) -> Outcome<Received> {
        let step = &arrived.step;
        let mut received = Received { is_made: is_new, ..Received::default() };
        let volume_size = step.volume.get("volsize").cloned();
        if let Some(snapshot) = self.tree.edit_snapshot(&arrived.destination) {
            snapshot.received.clone_from(&step.snapshot_properties);
            snapshot.volume_size = volume_size;
        }
        if let Some(file_system) = self.tree.edit(base) {
            file_system.local.extend(step.volume.clone());
        }
        if let Some(properties) = &step.properties {
            received.told.extend(self.receive_properties(manner, base, properties));
        }
        let affected = self.affected(base, &Property::Native(Native::MountPoint)).filter(|_| !is_new);
        self.override_properties(manner, arrived, base)?;
        received.unmounted.extend(affected.iter().flat_map(|it| self.settle_mounts(it)));
        if !manner.skips_holds {
            for tag in &step.holds {
                self.hold(&arrived.destination, tag, manner.clock).trying(|| Action::Hold(arrived.destination.clone()))?;
            }
        }
        Ok(received)
    }

    /// What was received takes the place of what was received before. Limits that don't fit are told, and left.
    fn receive_properties(&mut self, manner: &Manner, base: &str, properties: &Values) -> Vec<String> {
        let mut told = Vec::new();
        let (before, local) = self.tree.get(base).map(|it| (it.received.clone(), it.local.clone())).unwrap_or_default();
        let mut wanted = properties.clone();
        // What `-x` names is received and hidden; where it can't be inherited it isn't received, unless a local value stands for it.
        wanted.retain(|name, _| is_inherited(name) || local.contains_key(name) || !manner.excluded.contains(name));
        let mut kept = wanted.clone();
        let gone = before.keys().filter(|name| !wanted.contains_key(*name)).map(|name| (name.clone(), "0".to_owned()));
        let changes: Vec<(String, String)> = gone.chain(wanted.clone()).collect();
        for (name, value) in changes {
            let Some(native) = Native::named(&name).filter(|native| native.is_limit()) else { continue };
            // One that stays isn't set anew: the file system may be over it.
            if local.contains_key(&name) || before.get(&name) == Some(&value) {
                continue;
            }
            if let Err(reason) = self.set_limit(base, native, &value) {
                told.push(format!("cannot receive {name} property on {base}: {reason}"));
                kept.remove(&name);
            }
            if let Some(file_system) = self.tree.edit(base) {
                file_system.local.remove(&name);
            }
        }
        if let Some(file_system) = self.tree.edit(base) {
            file_system.received = kept;
        }
        told
    }

    /// `-o` sets what is asked at the top, and has it inherited below; `-x` has it inherited where no local value stands for it. What can't be
    /// inherited stays as it was received.
    fn override_properties(&mut self, manner: &Manner, arrived: &Arrived, base: &str) -> Outcome {
        let kind = arrived.step.kind;
        let action = || Action::SetProperty(base.to_owned());
        for setting in &manner.settings {
            if !arrived.is_top {
                if let Some(property) = Property::named(&setting.property).filter(|_| is_inherited(&setting.property)) {
                    self.inherit(base, &property, false).trying(action)?;
                }
                continue;
            }
            match check(setting, kind, true) {
                Ok(checked) => self.set(base, &checked).trying(action)?,
                Err(Reason::NotOfKind(_)) if arrived.is_replication => {}
                Err(Reason::NotOfKind(name)) => {
                    let reason = Reason::Text(format!("property '{name}' does not apply to datasets of this type"));
                    return Err(Failure::Cannot(arrived.step.action(), reason));
                }
                Err(reason) => return Err(Failure::Cannot(arrived.step.action(), reason)),
            }
        }
        for name in &manner.excluded {
            let is_local = self.tree.get(base).is_some_and(|it| it.local.contains_key(name));
            if let Some(property) = Property::named(name).filter(|_| is_inherited(name) && !is_local) {
                self.inherit(base, &property, false).trying(action)?;
            }
        }
        Ok(())
    }

    /// Keeps what came of a cut step, so that it can be resumed: the token for it.
    pub fn keep_partial(&mut self, manner: &Manner, destination: &str, step: &Step, bytes: Vec<u8>) -> Outcome<String> {
        let base = name::base(destination);
        let is_there = self.tree.has(base);
        if !is_there {
            if manner.naming == Naming::AllButPool {
                self.make_parents(base, manner.clock).trying(|| step.action())?;
            }
            self.make_file_system(base, step.kind, manner.clock).trying(|| step.action())?;
        }
        let before = self.tree.get(base).and_then(|it| it.partial.clone());
        let is_resumed = step.resumes_at.is_some();
        let mut all = before.as_ref().filter(|_| is_resumed).map(|it| it.bytes.clone()).unwrap_or_default();
        all.extend(bytes);
        let partial = Partial {
            to_name: step.to_name.clone(),
            to_guid: step.to_guid,
            from_guid: step.from_guid,
            bytes: all,
            is_fresh: before.map_or(!is_there, |it| it.is_fresh),
        };
        let token = super::token::of(&partial);
        if let Some(file_system) = self.tree.edit(base) {
            file_system.partial = Some(Rc::new(partial));
        }
        Ok(token)
    }

    /// Lets go of what a cut receive has left (`-A`).
    pub fn forget_partial(&mut self, name: &str) -> Outcome {
        let base = self.open(name)?.base;
        let none = || Failure::Told(format!("'{name}' does not have any resumable receive state to abort"));
        let partial = base.partial.as_ref().ok_or_else(none)?;
        if partial.is_fresh {
            self.layer.order(&format!("destroy {}", name::in_layer(name))).trying(|| Action::Destroy(name.to_owned()))?;
            self.tree.remove(name);
        } else if let Some(file_system) = self.tree.edit(name) {
            file_system.partial = None;
        }
        Ok(())
    }

    /// Brings what is here to what the sender of an incremental replication has: names and properties of snapshots, and with force what it hasn't
    /// goes.
    pub fn follow_sender(&mut self, manner: &Manner, begin: &Begin) -> Outcome {
        let mut sent: HashMap<String, HashMap<u64, &Listed>> = HashMap::new();
        for (name, snapshots) in &begin.file_systems {
            let here = destination(manner, begin, &format!("{name}@x"))?;
            sent.insert(name::base(&here).to_owned(), snapshots.iter().map(|it| (it.guid, it)).collect());
        }
        let top = destination(manner, begin, &begin.to_name)?;
        for base in self.tree.with_below(name::base(&top)) {
            if !self.tree.has(&base) {
                continue;
            }
            match sent.get(&base) {
                Some(snapshots) => self.follow_snapshots(manner, &base, snapshots),
                None if manner.is_forced => self.destroy_tree(&base)?,
                None => {}
            }
        }
        Ok(())
    }

    fn follow_snapshots(&mut self, manner: &Manner, base: &str, sent: &HashMap<u64, &Listed>) {
        if manner.is_forced {
            self.destroy_unsent(base, sent);
        }
        for snapshot in self.tree.snapshots(base) {
            let Some(listed) = sent.get(&snapshot.guid()) else { continue };
            if let Some(it) = self.tree.edit_snapshot(&snapshot.name) {
                it.received.clone_from(&listed.properties);
            }
            self.follow_name(base, &snapshot.name, &listed.name);
        }
    }

    /// Destroys the snapshots that the sender hasn't. One that is held or has clones stays, as it does in ZFS.
    fn destroy_unsent(&mut self, base: &str, sent: &HashMap<u64, &Listed>) {
        for snapshot in self.tree.snapshots(base).iter().filter(|it| !sent.contains_key(&it.guid())) {
            if self.layer.order(&format!("destroy {}", snapshot.path)).is_ok() {
                self.tree.remove_snapshot(&snapshot.name);
            }
        }
    }

    /// Gives a snapshot the name that the sender has for it, unless that is taken or too long here.
    fn follow_name(&mut self, base: &str, name: &str, sent: &str) {
        let new = format!("{base}@{sent}");
        if new != name && !name::is_too_long(&new) {
            let _ = self.rename_snapshot(name, sent, false);
        }
    }
}

/// The snapshot that a stream would make is there.
pub fn exists(destination: &str) -> Failure {
    Failure::Cannot(Action::Restore(destination.to_owned()), Reason::Text("destination already exists".into()))
}

fn not_received(arrived: &Arrived, base: &str, refusal: Refusal) -> Failure {
    Failure::Cannot(arrived.step.action(), reason_of(base, refusal))
}

/// What a refusal of a file system's stream is called.
pub fn reason_of(base: &str, refusal: Refusal) -> Reason {
    match refusal {
        Refusal::BadStream => Reason::Text("checksum mismatch".into()),
        Refusal::Quota | Refusal::RefQuota => Reason::Text(format!("destination {base} space quota exceeded.")),
        Refusal::WrongSource => Reason::Text(format!("most recent snapshot of {base} does not\nmatch incremental source")),
        Refusal::Modified => Reason::Text(format!("destination {base} has been modified\nsince most recent snapshot")),
        other => other.into(),
    }
}

/// Whether a property of that name is inherited: one of users always is.
fn is_inherited(name: &str) -> bool {
    Native::named(name).is_none_or(Native::is_inherited)
}

#[cfg(test)]
mod tests {
    use super::*;
    use crate::host::tests::{host, make, snapshot};
    use crate::stream::plan::Wanted;

    fn arrived(host: &mut Host, sent: &str, from: Option<&str>, destination: &str) -> Arrived {
        let wanted = Wanted { name: sent.into(), from: from.map(str::to_owned), with_properties: true, ..Wanted::default() };
        let plan = host.plan(&wanted).unwrap();
        let bytes = Rc::new(plan.steps[0].body(host).unwrap());
        Arrived { destination: destination.into(), step: plan.steps[0].head.clone(), bytes, is_top: true, is_replication: false }
    }

    fn receive(host: &mut Host, manner: &Manner, arrived: &Arrived) -> Result<Received, String> {
        host.change(|host| host.receive_step(manner, arrived)).map_err(|failure| failure.to_string())
    }

    fn prepared() -> Host {
        let mut host = host();
        make(&mut host, "tank/a");
        for (number, name) in ["tank/a@1", "tank/a@2"].iter().enumerate() {
            let path = host.open("tank/a").unwrap().path;
            host.layer.write(&path, 0, 0, &[number as u8 + 1]).unwrap();
            snapshot(&mut host, name);
        }
        host.tree.edit("tank/a").unwrap().local.insert("x:y".into(), "z".into());
        host.settle_names();
        host
    }

    #[test]
    fn names_are_put_together() {
        let begin = |to: &str, is_replication| Begin { to_name: to.into(), is_replication, ..Begin::default() };
        let manner = |target: &str, naming| Manner { target: target.into(), naming, ..Manner::default() };
        let go = |manner, begin, sent| destination(&manner, &begin, sent).map_err(|failure| failure.to_string());
        assert_eq!(go(manner("b/x", Naming::Below), begin("tank/a@s", false), "tank/a@s").unwrap(), "b/x@s");
        assert_eq!(go(manner("b/x", Naming::Below), begin("tank/a@s", true), "tank/a/c@r").unwrap(), "b/x/c@r");
        assert_eq!(go(manner("b/x@t", Naming::Below), begin("tank/a@s", false), "tank/a@s").unwrap(), "b/x@t");
        assert_eq!(go(manner("b", Naming::AllButPool), begin("tank/a/c@s", false), "tank/a/c@s").unwrap(), "b/a/c@s");
        assert_eq!(go(manner("b", Naming::Last), begin("tank/a/c@s", true), "tank/a/c/d@s").unwrap(), "b/c/d@s");
        assert_eq!(go(manner("b", Naming::Last), begin("tank@s", false), "tank@s").unwrap(), "b/tank@s");
        assert!(go(manner("b@s", Naming::Last), begin("tank@s", false), "tank@s").is_err());
        assert!(go(manner("b@s", Naming::Below), begin("tank@s", true), "tank@s").is_err());
    }

    #[test]
    fn a_full_stream_and_an_increment_are_received() {
        let mut host = prepared();
        let manner = Manner { target: "tank/b".into(), ..Manner::default() };
        let full = arrived(&mut host, "tank/a@1", None, "tank/b@1");
        receive(&mut host, &manner, &full).unwrap();
        let copy = host.open("tank/b@1").unwrap();
        assert_eq!((copy.guid(), copy.base.received.get("x:y").map(String::as_str)), (host.open("tank/a@1").unwrap().guid(), Some("z")));
        let again = receive(&mut host, &manner, &full).unwrap_err();
        assert_eq!(again, "cannot receive new filesystem stream: destination 'tank/b' exists\nmust specify -F to overwrite it\n");
        let increment = arrived(&mut host, "tank/a@2", Some("tank/a@1"), "tank/b@2");
        receive(&mut host, &manner, &increment).unwrap();
        let path = host.open("tank/b").unwrap().path;
        assert_eq!(host.layer.read(&path, 0, 0).unwrap().unwrap()[0], 2);
    }

    #[test]
    fn force_goes_back_over_newer_snapshots_but_not_over_held_ones() {
        let mut host = prepared();
        let manner = Manner { target: "tank/b".into(), ..Manner::default() };
        let forced = Manner { is_forced: true, ..manner.clone() };
        let full = arrived(&mut host, "tank/a@1", None, "tank/b@1");
        receive(&mut host, &manner, &full).unwrap();
        let path = host.open("tank/b").unwrap().path;
        host.layer.write(&path, 7, 7, &[7]).unwrap();
        snapshot(&mut host, "tank/b@own");
        let increment = arrived(&mut host, "tank/a@2", Some("tank/a@1"), "tank/b@2");
        assert!(receive(&mut host, &manner, &increment).unwrap_err().contains("has been modified\nsince most recent snapshot"));
        host.change(|host| host.hold("tank/b@own", "t", 1).map_err(|_| Failure::Silent)).unwrap();
        assert!(receive(&mut host, &forced, &increment).unwrap_err().contains("dataset is busy"));
        assert!(host.tree.has("tank/b@own"));
        host.change(|host| host.release("tank/b@own", "t").map_err(|_| Failure::Silent)).unwrap();
        receive(&mut host, &forced, &increment).unwrap();
        assert!(host.tree.has("tank/b@2") && !host.tree.has("tank/b@own"));
    }

    #[test]
    fn an_increment_goes_onto_a_newer_snapshot_that_has_changed_nothing() {
        let mut host = prepared();
        let manner = Manner { target: "tank/b".into(), ..Manner::default() };
        let full = arrived(&mut host, "tank/a@1", None, "tank/b@1");
        receive(&mut host, &manner, &full).unwrap();
        snapshot(&mut host, "tank/b@own");
        let increment = arrived(&mut host, "tank/a@2", Some("tank/a@1"), "tank/b@2");
        receive(&mut host, &manner, &increment).unwrap();
        let path = host.open("tank/b").unwrap().path;
        assert_eq!(host.layer.read(&path, 0, 0).unwrap().unwrap()[0], 2);
        let names: Vec<String> = host.tree.snapshots("tank/b").iter().map(|it| it.name.clone()).collect();
        assert_eq!(names, ["tank/b@1", "tank/b@own", "tank/b@2"]);
        assert_eq!(host.open("tank/b@2").unwrap().guid(), host.open("tank/a@2").unwrap().guid());
    }

    #[test]
    fn a_full_stream_may_replace_an_empty_root() {
        let mut host = prepared();
        let full = arrived(&mut host, "tank/a@2", None, "back@2");
        let mut back = Host::create("back".into(), 10_000, 1, host.facts.clone()).unwrap();
        let manner = Manner { target: "back".into(), ..Manner::default() };
        assert!(receive(&mut back, &manner, &full).unwrap_err().contains("must specify -F to overwrite it"));
        let forced = Manner { is_forced: true, ..manner };
        receive(&mut back, &forced, &full).unwrap();
        let root = back.open("back").unwrap();
        assert_eq!(back.layer.read(&root.path, 0, 0).unwrap().unwrap()[0], 2);
        assert!(back.tree.has("back@2"));
        assert!(receive(&mut back, &forced, &full).unwrap_err().contains("destination has snapshots"));
    }

    #[test]
    fn a_full_stream_replaces_contents_and_leaves_what_is_below() {
        let mut host = prepared();
        make(&mut host, "tank/b");
        make(&mut host, "tank/b/c");
        snapshot(&mut host, "tank/b/c@own");
        let path = host.open("tank/b").unwrap().path;
        host.layer.write(&path, 9, 9, &[9]).unwrap();
        host.layer.sync().unwrap();
        let full = arrived(&mut host, "tank/a@2", None, "tank/b@2");
        let forced = Manner { target: "tank/b".into(), is_forced: true, ..Manner::default() };
        receive(&mut host, &forced, &full).unwrap();
        assert_eq!(host.layer.read(&path, 9, 9), Ok(None));
        assert_eq!(host.layer.read(&path, 0, 0).unwrap().unwrap()[0], 2);
        assert!(host.tree.has("tank/b/c@own") && host.open("tank/b@2").unwrap().guid() == host.open("tank/a@2").unwrap().guid());
        // What comes after it goes on from it.
        snapshot(&mut host, "tank/a@3");
        let next = arrived(&mut host, "tank/a@3", Some("tank/a@2"), "tank/b@3");
        receive(&mut host, &Manner { target: "tank/b".into(), ..Manner::default() }, &next).unwrap();
        assert_eq!(host.layer.ask(&format!("get written {path}")), Ok("0".into()));
    }

    #[test]
    fn a_clone_is_received_onto_its_origin() {
        let mut host = prepared();
        let whole = |host: &mut Host, sent: &str, from: Option<&str>, to: &str| {
            let arrived = arrived(host, sent, from, to);
            receive(host, &Manner { target: name::base(to).into(), ..Manner::default() }, &arrived)
        };
        whole(&mut host, "tank/a@1", None, "tank/b@1").unwrap();
        host.change(|host| host.make_clone("tank/a@1", "tank/clone", 1).map_err(|_| Failure::Silent)).unwrap();
        let path = host.open("tank/clone").unwrap().path;
        host.layer.write(&path, 5, 5, &[5]).unwrap();
        snapshot(&mut host, "tank/clone@c");
        whole(&mut host, "tank/clone@c", Some("tank/a@1"), "tank/d@c").unwrap();
        let copy = host.open("tank/d").unwrap().path;
        assert_eq!(host.layer.read(&copy, 5, 5).unwrap().unwrap()[0], 5);
        assert_eq!(host.layer.read(&copy, 0, 0).unwrap().unwrap()[0], 1);
        assert!(host.origin("tank/d").is_some_and(|origin| origin.ends_with("@1")));
        assert_eq!(host.tree.snapshots("tank/d").len(), 1);
        assert_eq!(host.layer.ask("list").unwrap().matches(&format!("{copy}@")).count(), 1);
    }

    #[test]
    fn a_full_stream_is_received_as_a_clone_of_what_is_named() {
        let mut host = prepared();
        let mut full = arrived(&mut host, "tank/a@2", None, "tank/d@2");
        let manner = Manner { target: "tank/d".into(), origin: Some("tank/a@1".into()), ..Manner::default() };
        full.step = full.step.onto(manner.origin.as_deref());
        let none = Manner { origin: Some("tank/a@none".into()), ..manner.clone() };
        assert_eq!(receive(&mut host, &none, &full).unwrap_err(), "cannot receive new filesystem stream: Invalid cross-device link\n");
        let no_snapshot = Manner { origin: Some("tank/a".into()), ..manner.clone() };
        assert_eq!(receive(&mut host, &no_snapshot, &full).unwrap_err(), "cannot receive new filesystem stream: invalid backup stream\n");
        receive(&mut host, &manner, &full).unwrap();
        let copy = host.open("tank/d").unwrap().path;
        assert_eq!(host.origin("tank/d").as_deref(), Some("tank/a@1"));
        assert_eq!(host.layer.read(&copy, 0, 0).unwrap().unwrap()[0], 2);
        assert_eq!(host.open("tank/d@2").unwrap().guid(), host.open("tank/a@2").unwrap().guid());
        let mut step = arrived(&mut host, "tank/a@2", Some("tank/a@1"), "tank/e@2");
        step.step = step.step.onto(Some("tank/d@2"));
        let wrong = Manner { target: "tank/e".into(), origin: Some("tank/d@2".into()), ..Manner::default() };
        assert!(receive(&mut host, &wrong, &step).unwrap_err().contains("does not\nmatch incremental source"));
        assert!(!host.tree.has("tank/e"));
    }

    #[test]
    fn a_cut_receive_is_resumed() {
        let mut host = prepared();
        let manner = Manner { target: "tank/b".into(), is_resumable: true, ..Manner::default() };
        let full = arrived(&mut host, "tank/a@1", None, "tank/b@1");
        let half = full.bytes.len() / 2;
        host.change(|host| host.keep_partial(&manner, "tank/b@1", &full.step, full.bytes[..half].to_vec())).unwrap();
        assert!(receive(&mut host, &manner, &full).unwrap_err().contains("must specify -F to overwrite it"));
        let forced = Manner { is_forced: true, ..manner.clone() };
        assert!(receive(&mut host, &forced, &full).unwrap_err().contains("contains partially-complete state"));
        let rest = |from: usize| Arrived {
            step: Step { resumes_at: Some(from as u64), ..full.step.clone() },
            bytes: Rc::new(full.bytes[from..].to_vec()),
            ..full.clone()
        };
        assert!(receive(&mut host, &manner, &rest(half + 1)).is_err());
        receive(&mut host, &manner, &rest(half)).unwrap();
        assert!(host.tree.has("tank/b@1") && host.open("tank/b").unwrap().base.partial.is_none());
        assert!(host.change(|host| host.forget_partial("tank/b")).is_err());
    }

    #[test]
    fn a_resumed_receive_takes_no_name_that_is_there() {
        let mut host = prepared();
        let manner = Manner { target: "tank/b".into(), is_resumable: true, ..Manner::default() };
        let full = arrived(&mut host, "tank/a@1", None, "tank/b@1");
        receive(&mut host, &manner, &full).unwrap();
        let increment = arrived(&mut host, "tank/a@2", Some("tank/a@1"), "tank/b@2");
        let half = increment.bytes.len() / 2;
        host.change(|host| host.keep_partial(&manner, "tank/b@2", &increment.step, increment.bytes[..half].to_vec())).unwrap();
        snapshot(&mut host, "tank/b@2");
        let step = Step { resumes_at: Some(half as u64), ..increment.step.clone() };
        let rest = Arrived { step, bytes: Rc::new(increment.bytes[half..].to_vec()), ..increment.clone() };
        let before = format!("{:?}", host.tree);
        assert_eq!(receive(&mut host, &manner, &rest).unwrap_err(), "cannot restore to tank/b@2: destination already exists\n");
        assert_eq!(format!("{:?}", host.tree), before);
        host.change(|host| host.rename_snapshot("tank/b@2", "own", false).map_err(|_| Failure::Silent)).unwrap();
        receive(&mut host, &manner, &rest).unwrap();
        assert_eq!(host.tree.snapshots("tank/b").iter().map(|it| it.name.clone()).collect::<Vec<_>>(), ["tank/b@1", "tank/b@own", "tank/b@2"]);
    }
}
