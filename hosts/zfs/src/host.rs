//! A pool with what the host keeps of it. It lives on a thread of its own (`world`).
//!
//! Each command that changes something runs in `Host::change`: it is done whole, or the pool goes back to where it was, in the layer by
//! `abandon` to its last sync, and here by the copy of the tree that was kept then.

use crate::dataset::{Bookmark, Dataset, FileSystem, Kind, Snapshot, Tree, Values};
use crate::failure::{Failure, Outcome, Reason};
use crate::layer::{Layer, Refusal};
use crate::name;
use crate::snapshots::Snapshots;
use crate::sys;
use crate::zpool::vdev::Vdev;
use std::collections::{BTreeMap, BTreeSet};
use std::fs::File;
use std::io::Read;
use std::rc::Rc;
use yuzgont::Property;

/// What is fixed of a pool, and what `zpool set` has set.
#[derive(Clone, Debug)]
pub struct PoolFacts {
    pub guid: u64,
    pub vdevs: Vec<Vdev>,
    pub properties: Values,
}

pub struct Host {
    pub name: String,
    pub layer: Layer,
    pub tree: Tree,
    pub facts: PoolFacts,
    pub history: Vec<String>,
    /// When the pool was scrubbed last, by the client's clock.
    pub scrubbed: Option<i64>,
    /// The tree at the layer's last sync.
    settled: Tree,
    /// The layer's open group.
    group: u64,
}

/// The object and block that stand for the master node: no file system of ZFS is empty.
const MASTER: (u32, u32) = (255, 4095);

/// A random number of 64 bits that isn't 0.
pub fn random() -> u64 {
    let mut bytes = [0; 8];
    match File::open("/dev/urandom").and_then(|mut file| file.read_exact(&mut bytes)) {
        Ok(()) => u64::from_le_bytes(bytes).max(1),
        Err(_) => 1,
    }
}

impl Host {
    /// A pool of so many blocks, with its root file system.
    pub fn create(name: String, blocks: u32, clock: i64, facts: PoolFacts) -> Result<Host, Refusal> {
        let layer = Layer::create(random() as u32 | 1, blocks)?;
        let (tree, settled) = (Tree::new(), Tree::new());
        let mut host = Host { name: name.clone(), layer, tree, facts, history: Vec::new(), scrubbed: None, settled, group: 1 };
        host.layer.write(&name::in_layer(&name), MASTER.0, MASTER.1, &[1])?;
        let root = host.new_file_system(Kind::FileSystem, clock);
        host.tree.insert(name, root);
        host.settle()?;
        Ok(host)
    }

    pub fn new_file_system(&mut self, kind: Kind, clock: i64) -> FileSystem {
        FileSystem {
            kind,
            guid: random() >> 1 | 1,
            creation: clock,
            create_txg: self.group,
            objset: self.tree.next_objset(),
            local: Values::new(),
            received: Values::new(),
            hidden: BTreeSet::new(),
            is_mounted: false,
            mounted_at: None,
            is_over_refquota: false,
            mount_options: Vec::new(),
            partial: None,
            snapshots: Snapshots::default(),
            bookmarks: Vec::new(),
        }
    }

    /// Frees what was let go, and closes the group, so that space is back at once and two commands are never in one group.
    fn settle(&mut self) -> Result<(), Refusal> {
        self.bind_refquotas()?;
        self.layer.free_all()?;
        self.group = self.layer.sync()?;
        if self.layer.number("pget waiting")? > 0 {
            self.group = self.layer.sync()?;
        }
        self.settled = self.tree.clone();
        Ok(())
    }

    /// The tree as it was at the last sync.
    pub fn settled(&self) -> &Tree {
        &self.settled
    }

    /// Runs what changes the pool: all of it, or nothing.
    pub fn change<T>(&mut self, run: impl FnOnce(&mut Host) -> Outcome<T>) -> Outcome<T> {
        let outcome = run(self).and_then(|value| match self.settle() {
            Ok(()) => Ok(value),
            Err(refusal) => Err(Failure::Told(format!("internal error: {}", Reason::from(refusal)))),
        });
        if outcome.is_err() {
            self.go_back();
        }
        outcome
    }

    /// Goes back to the last sync.
    pub fn go_back(&mut self) {
        self.tree = self.settled.clone();
        if self.layer.abandon().is_err() {
            self.follow_layer();
        }
    }

    /// Takes away from the tree what the layer doesn't list.
    pub fn follow_layer(&mut self) {
        if let Ok(listing) = self.layer.ask("list") {
            self.tree.follow(&listing);
        }
    }

    /// Takes a snapshot away from the tree if the layer hasn't it any more.
    pub fn follow_snapshot(&mut self, name: &str, path: &str) {
        if self.layer.get(path, Property::Guid) == Err(Refusal::NoDataset) {
            self.tree.remove_snapshot(name);
        }
    }

    /// Writes a line into the history, with its time.
    pub fn log(&mut self, clock: i64, words: &str) {
        let time = sys::local_time(clock).map_or_else(|| clock.to_string(), |time| time.to_string());
        self.history.push(format!("{time} {words}"));
    }

    /// The dataset of a name, or that it can't be opened.
    pub fn open(&self, name: &str) -> Outcome<Dataset> {
        self.tree.find(name).ok_or_else(|| Failure::no_dataset(name))
    }

    /// Makes a file system below one that is there.
    pub fn make_file_system(&mut self, name: &str, kind: Kind, clock: i64) -> Result<(), Reason> {
        let above = name::parent(name).ok_or(Reason::Exists)?;
        self.check_place(name, above)?;
        let path = name::in_layer(name);
        self.layer.order(&format!("create {path}"))?;
        self.layer.write(&path, MASTER.0, MASTER.1, &[1])?;
        let file_system = self.new_file_system(kind, clock);
        self.tree.insert(name.to_owned(), file_system);
        Ok(())
    }

    /// A new file system's name is free, and what is above it takes file systems.
    pub fn check_place(&self, name: &str, above: &str) -> Result<(), Reason> {
        if self.tree.has(name) {
            return Err(Reason::Exists);
        }
        let above = self.tree.get(above).ok_or(Reason::NoParent)?;
        if above.kind == Kind::Volume {
            return Err(Reason::ParentIsVolume);
        }
        if name.matches('/').count() >= name::DEPTH_LIMIT {
            return Err(Reason::NameTooLong);
        }
        Ok(())
    }

    /// Makes those file systems on the way to one that aren't there.
    pub fn make_parents(&mut self, name: &str, clock: i64) -> Result<(), Reason> {
        let places: Vec<usize> = name.match_indices('/').map(|(place, _)| place).collect();
        for place in places {
            let above = &name[..place];
            if !self.tree.has(above) {
                self.make_file_system(above, Kind::FileSystem, clock)?;
                let _ = self.mount_new(above);
            }
        }
        Ok(())
    }

    /// Makes snapshots of these names in one group.
    pub fn make_snapshots(&mut self, names: &[String], clock: i64, local: &Values) -> Result<(), Refusal> {
        let paths: Vec<String> = names.iter().map(|name| name::in_layer(name)).collect();
        self.layer.order(&format!("snapshot {}", paths.join(" ")))?;
        names.iter().try_for_each(|name| self.add_snapshot(name, clock, local.clone()))
    }

    /// Takes up a snapshot that the layer has just made.
    pub fn add_snapshot(&mut self, name: &str, creation: i64, local: Values) -> Result<(), Refusal> {
        let objset = self.tree.next_objset();
        let (base, component) = name.split_once('@').ok_or(Refusal::BadName)?;
        let file_system = self.tree.edit(base).ok_or(Refusal::NoDataset)?;
        let path = name::in_layer(name);
        let snapshot = Snapshot {
            name: component.into(),
            guid: self.layer.get(&path, Property::Guid)?,
            creation,
            create_txg: self.layer.get(&path, Property::CreateTxg)?,
            objset,
            local,
            received: Values::new(),
            hidden: BTreeSet::new(),
            volume_size: file_system.local.get("volsize").cloned(),
            holds: BTreeMap::new(),
        };
        file_system.snapshots.add(Rc::new(snapshot));
        Ok(())
    }

    /// Makes a snapshot of a file system for the host alone, which nobody sees, and which is destroyed by its caller: its name in the layer.
    pub fn make_own_snapshot(&mut self, path: &str) -> Result<String, Refusal> {
        let own = format!("{path}@{}", name::OWN);
        self.layer.order(&format!("snapshot {own}"))?;
        Ok(own)
    }

    /// Gives a snapshot another name within its file system, and with `is_recursive` those of its name in all file systems below: all or none.
    pub fn rename_snapshot(&mut self, name: &str, new: &str, is_recursive: bool) -> Result<(), Refusal> {
        let (base, old) = name.split_once('@').ok_or(Refusal::NotSnapshot)?;
        self.layer.rename_snapshot(&name::in_layer(name), &name::spelt(new), is_recursive)?;
        self.tree.rename_snapshot(base, old, new, is_recursive);
        Ok(())
    }

    /// Makes a bookmark of a snapshot.
    pub fn make_bookmark(&mut self, from: &Dataset, base: &str, name: &str) -> Result<(), Refusal> {
        let snapshot = from.snapshot().ok_or(Refusal::NotSnapshot)?;
        let file_system = self.tree.edit(base).ok_or(Refusal::NoDataset)?;
        let number = file_system.next_bookmark();
        self.layer.order(&format!("bookmark {} {}#{number}", from.path, name::in_layer(base)))?;
        let bookmark = Bookmark {
            name: name.to_owned(),
            number,
            guid: snapshot.guid,
            creation: snapshot.creation,
            create_txg: snapshot.create_txg,
            referenced: self.layer.get(&from.path, Property::Referenced)?,
        };
        file_system.bookmarks.push(Rc::new(bookmark));
        Ok(())
    }

    /// The names of a snapshot's clones.
    pub fn clones(&mut self, snapshot: &Dataset) -> Result<Vec<String>, Refusal> {
        let text = self.layer.ask(&format!("get clones {}", snapshot.path))?;
        let mut names: Vec<String> = text.split(',').filter_map(|path| self.tree.named(path)).collect();
        names.sort();
        Ok(names)
    }

    /// The name of the snapshot that a file system is a clone of.
    pub fn origin(&mut self, name: &str) -> Option<String> {
        let origin = self.layer.ask(&format!("get origin {}", name::in_layer(name))).ok()?;
        self.tree.named(&origin)
    }

    /// Keeps what has changed here alone: the layer has nothing to sync.
    pub fn settle_names(&mut self) {
        self.settled = self.tree.clone();
    }

    /// Gives the pool another name, and so all its datasets.
    pub fn rename_pool(&mut self, new: &str) {
        if self.name != new {
            self.tree.rename(&self.name, new);
            self.settle_names();
            self.name = new.to_owned();
        }
    }
}

#[cfg(test)]
pub mod tests {
    use super::*;

    pub fn host() -> Host {
        let facts = PoolFacts { guid: 1, vdevs: Vec::new(), properties: Values::new() };
        Host::create("tank".into(), 10_000, 1000, facts).unwrap()
    }

    pub fn make(host: &mut Host, name: &str) {
        host.change(|host| host.make_file_system(name, Kind::FileSystem, 1000).map_err(|_| Failure::Silent)).unwrap();
    }

    pub fn snapshot(host: &mut Host, name: &str) {
        host.change(|host| host.make_snapshots(&[name.to_owned()], 1000, &Values::new()).map_err(|_| Failure::Silent)).unwrap();
    }

    #[test]
    fn a_change_that_fails_has_changed_nothing() {
        let mut host = host();
        make(&mut host, "tank/a");
        let (before, listing) = (format!("{:?}", host.tree), host.layer.ask("list").unwrap());
        let outcome: Outcome = host.change(|host| {
            host.make_file_system("tank/a/b", Kind::FileSystem, 1).unwrap();
            host.make_snapshots(&["tank/a@x".into()], 1, &Values::new()).unwrap();
            Err(Failure::Silent)
        });
        assert_eq!(outcome, Err(Failure::Silent));
        assert_eq!((format!("{:?}", host.tree), host.layer.ask("list").unwrap()), (before, listing));
    }

    #[test]
    fn names_of_any_form_go_into_the_layer() {
        let mut host = host();
        make(&mut host, "tank/with blank");
        snapshot(&mut host, "tank/with blank@a b");
        host.follow_layer();
        assert!(host.tree.has("tank/with blank@a b"));
        assert_eq!(host.tree.snapshots("tank/with blank").len(), 1);
        assert_eq!(host.layer.ask("list").unwrap(), "p p/with:._blank p/with:._blank@a:._b");
    }

    #[test]
    fn a_name_that_is_too_long_in_the_layer_is_too_long() {
        let mut host = host();
        let blanks = |count: usize| format!("tank/{}", " ".repeat(count));
        make(&mut host, &blanks(84));
        assert_eq!(host.make_file_system(&blanks(85), Kind::FileSystem, 1), Err(Reason::TooManyBelow));
    }

    #[test]
    fn groups_differ_between_commands() {
        let mut host = host();
        snapshot(&mut host, "tank@a");
        snapshot(&mut host, "tank@b");
        let groups: Vec<u64> = host.tree.snapshots("tank").iter().map(Dataset::create_txg).collect();
        assert!(groups[0] < groups[1], "{groups:?}");
    }
}
