//! What goes: file systems with all that depends on them, and what stands in the way of a rollback.

use crate::dataset::{Dataset, Part};
use crate::dependents::{Clones, Dependents, Purpose};
use crate::failure::{Action, Failure, Outcome, Reason};
use crate::host::Host;
use crate::layer::Refusal;
use crate::name;

impl Host {
    /// Destroys a file system with all that depends on it. Of a root all but itself goes.
    pub fn destroy_tree(&mut self, name: &str) -> Outcome {
        // One request does it where nothing elsewhere depends on it. The layer keeps its root.
        if !name.contains('/') || self.destroy_whole(name).is_err() {
            self.destroy_in_order(name)?;
        }
        self.follow_layer();
        self.destroy_snapshots(&self.tree.snapshots(name), false)
    }

    /// The same by a request for each file system, but for a root's snapshots.
    fn destroy_in_order(&mut self, name: &str) -> Outcome {
        let (dataset, clones) = (self.open(name)?, self.all_clones());
        let dependents = Dependents::of(&dataset, &self.tree, &clones, Purpose::Destroy);
        dependents.outcome?;
        // A snapshot goes with its file system.
        let file_systems = dependents.names.iter().map(String::as_str).chain([name]).filter(|it| it.contains('/') && !it.contains('@'));
        for file_system in file_systems {
            self.destroy_whole(file_system).map_err(|refusal| self.not_destroyed(file_system, refusal))?;
        }
        Ok(())
    }

    /// A client that stands in a mountpoint keeps it busy; the deepest is told. What was there at the last sync counts, so this may be asked after a
    /// destroy.
    pub fn check_unused(&self, name: &str, folder: &str) -> Outcome {
        let places = self.settled().with_below(name).into_iter().rev().filter_map(|below| self.settled_place(&below));
        match places.into_iter().find(|place| folder == place || name::is_below(folder, place)) {
            Some(place) => Err(Failure::Told(format!("cannot unmount '{place}': pool or dataset is busy"))),
            None => Ok(()),
        }
    }

    /// Destroys a file system with all below it, as one request of the layer.
    fn destroy_whole(&mut self, name: &str) -> Result<(), Refusal> {
        self.layer.order(&format!("destroy -r {}", name::in_layer(name)))
    }

    /// Says which snapshot is held, where one is.
    fn not_destroyed(&self, name: &str, refusal: Refusal) -> Failure {
        let is_held = |it: &Dataset| it.snapshot().is_some_and(|it| !it.holds.is_empty());
        match self.tree.snapshots(name).into_iter().find(is_held) {
            Some(held) if refusal == Refusal::Busy => Failure::Cannot(Action::DestroySnapshot(held.name), Reason::Busy),
            _ => Failure::Cannot(Action::Destroy(name.to_owned()), refusal.into()),
        }
    }

    /// Destroys snapshots, all or none of them. One that something has taken with it is gone already.
    pub fn destroy_snapshots(&mut self, doomed: &[Dataset], is_deferred: bool) -> Outcome {
        if doomed.is_empty() {
            return Ok(());
        }
        let paths: Vec<&str> = doomed.iter().map(|snapshot| snapshot.path.as_str()).collect();
        match self.layer.destroy_snapshots(&paths, is_deferred) {
            Ok(()) | Err(Refusal::NoDataset) => {
                doomed.iter().for_each(|snapshot| self.follow_snapshot(&snapshot.name, &snapshot.path));
                Ok(())
            }
            Err(refusal) => Err(self.not_gone(doomed, refusal)),
        }
    }

    /// Says of each snapshot that stands in the way of a destroy what keeps it.
    fn not_gone(&mut self, doomed: &[Dataset], refusal: Refusal) -> Failure {
        let mut told = Vec::new();
        for snapshot in doomed.iter().filter(|_| matches!(refusal, Refusal::Busy | Refusal::HasClones)) {
            let is_held = snapshot.snapshot().is_some_and(|it| !it.holds.is_empty());
            if is_held || self.clones(snapshot).is_ok_and(|clones| !clones.is_empty()) {
                let reason = if is_held { Reason::Busy } else { Reason::SnapshotIsCloned };
                told.push(Failure::Cannot(Action::DestroySnapshot(snapshot.name.clone()), reason));
            }
        }
        if told.is_empty() { Failure::Cannot(Action::DestroySnapshots, refusal.into()) } else { Failure::Several(told) }
    }

    /// Takes a bookmark away, and the layer's with the last that stands for it.
    pub fn remove_bookmark(&mut self, dataset: &Dataset) -> Result<(), Refusal> {
        let Part::Bookmark(bookmark) = &dataset.part else { return Err(Refusal::NoDataset) };
        let others = dataset.base.bookmarks.iter().filter(|it| it.number == bookmark.number).count();
        if others <= 1 {
            self.layer.order(&format!("destroy {}", dataset.path))?;
        }
        let base = self.tree.edit(name::base(&dataset.name)).ok_or(Refusal::NoDataset)?;
        base.bookmarks.retain(|it| it.name != bookmark.name);
        Ok(())
    }

    /// Rolls a file system back to a snapshot; what is newer goes, with clones of newer snapshots.
    pub fn roll_back(&mut self, snapshot: &Dataset) -> Outcome {
        let base = name::base(&snapshot.name).to_owned();
        self.destroy_newer_clones(snapshot)?;
        if let Err(refusal) = self.layer.order(&format!("rollback -r {}", snapshot.path)) {
            let held = self.newer_snapshots(snapshot).into_iter().find(|it| it.snapshot().is_some_and(|it| !it.holds.is_empty()));
            return Err(match held.filter(|_| refusal == Refusal::Busy) {
                Some(held) => Failure::Cannot(Action::Destroy(held.name), Reason::Busy),
                None => Failure::Cannot(Action::Rollback(base), refusal.into()),
            });
        }
        self.follow_layer();
        let size = snapshot.snapshot().and_then(|it| it.volume_size.clone());
        if let (Some(size), Some(file_system)) = (size, self.tree.edit(&base)) {
            file_system.local.insert("volsize".into(), size);
        }
        Ok(())
    }

    /// Destroys the clones of newer snapshots. Each newer snapshot that depends on itself is told, and that it can't go.
    fn destroy_newer_clones(&mut self, snapshot: &Dataset) -> Outcome {
        let clones = self.all_clones();
        let mut told = Vec::new();
        for newer in self.newer_snapshots(snapshot) {
            match Dependents::of(&newer, &self.tree, &clones, Purpose::Destroy).outcome {
                Err(failure) => told.extend([failure, Failure::Cannot(Action::Destroy(newer.name), Reason::Exists)]),
                Ok(()) if told.is_empty() => self.destroy_clones(&newer, &clones)?,
                Ok(()) => {}
            }
        }
        if told.is_empty() { Ok(()) } else { Err(Failure::Several(told)) }
    }

    /// Destroys those clones of a snapshot that are there still.
    pub fn destroy_clones(&mut self, snapshot: &Dataset, clones: &Clones) -> Outcome {
        for clone in clones.get(&snapshot.name).into_iter().flatten() {
            if self.tree.has(clone) {
                self.destroy_tree(clone)?;
            }
        }
        Ok(())
    }

    pub fn newer_snapshots(&self, snapshot: &Dataset) -> Vec<Dataset> {
        let base = name::base(&snapshot.name);
        let Some(file_system) = self.tree.get(base) else { return Vec::new() };
        let age = snapshot.snapshot().map_or(0, |it| it.objset);
        let newer = file_system.snapshots.iter().rev().take_while(|it| it.objset > age);
        let mut newer: Vec<Dataset> = newer.map(|it| self.tree.snapshot_of(base, file_system, it)).collect();
        newer.reverse();
        newer
    }
}
