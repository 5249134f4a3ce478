//! The datasets of a pool, with what the layer hasn't of them: times, properties, kinds, names of bookmarks and tags.
//!
//! The layer knows a file system and a snapshot by its name (`name::in_layer`), a bookmark by a number of its file system, and a tag by one of its
//! snapshot.

use crate::name;
use crate::snapshots::Snapshots;
use crate::stream::Partial;
use std::collections::{BTreeMap, BTreeSet, HashSet};
use std::fmt;
use std::ops::Bound;
use std::rc::Rc;

#[derive(Clone, Copy, Debug, PartialEq, Eq, PartialOrd, Ord, Hash)]
pub enum Kind {
    FileSystem,
    Volume,
    Snapshot,
    Bookmark,
}

impl fmt::Display for Kind {
    fn fmt(&self, f: &mut fmt::Formatter<'_>) -> fmt::Result {
        f.write_str(match self {
            Kind::FileSystem => "filesystem",
            Kind::Volume => "volume",
            Kind::Snapshot => "snapshot",
            Kind::Bookmark => "bookmark",
        })
    }
}

/// Properties by their names.
pub type Values = BTreeMap<String, String>;

/// A file system or a volume.
#[derive(Clone, Debug)]
pub struct FileSystem {
    pub kind: Kind,
    pub guid: u64,
    pub creation: i64,
    pub create_txg: u64,
    pub objset: u64,
    pub local: Values,
    pub received: Values,
    /// Received properties that are inherited all the same, as `zfs inherit` says.
    pub hidden: BTreeSet<String>,
    pub is_mounted: bool,
    /// Where it is mounted, if that isn't its mountpoint: a rename with `-u` leaves it where it was.
    pub mounted_at: Option<String>,
    /// Whether a receive went over its refquota. The layer's is what it refers to as long as that is more.
    pub is_over_refquota: bool,
    /// The options of its mount, which stand for properties as long as it is mounted.
    pub mount_options: Vec<String>,
    /// What a resumable receive that was cut has left.
    pub partial: Option<Rc<Partial>>,
    pub snapshots: Snapshots,
    pub bookmarks: Vec<Rc<Bookmark>>,
}

#[derive(Clone, Debug)]
pub struct Snapshot {
    /// What stands after `@`.
    pub name: Rc<str>,
    pub guid: u64,
    pub creation: i64,
    pub create_txg: u64,
    pub objset: u64,
    pub local: Values,
    pub received: Values,
    /// Received properties that are inherited all the same, as `zfs inherit` says.
    pub hidden: BTreeSet<String>,
    pub volume_size: Option<String>,
    pub holds: BTreeMap<String, Hold>,
}

/// A tag that keeps a snapshot: when it was put, and its number in the layer.
#[derive(Clone, Copy, Debug, PartialEq, Eq)]
pub struct Hold {
    pub time: i64,
    pub number: u64,
}

#[derive(Clone, Debug)]
pub struct Bookmark {
    pub name: String,
    /// What stands after `#` in the layer. A bookmark of a bookmark has the same.
    pub number: u64,
    pub guid: u64,
    pub creation: i64,
    pub create_txg: u64,
    /// The bytes that its snapshot referenced.
    pub referenced: u64,
}

impl FileSystem {
    pub fn bookmark(&self, component: &str) -> Option<&Rc<Bookmark>> {
        self.bookmarks.iter().find(|bookmark| bookmark.name == component)
    }

    /// A number that none of its bookmarks has.
    pub fn next_bookmark(&self) -> u64 {
        above(self.bookmarks.iter().map(|bookmark| bookmark.number))
    }

    /// A value of its own that is a number.
    pub fn number(&self, property: &str) -> Option<u64> {
        self.local.get(property)?.parse().ok()
    }
}

impl Snapshot {
    /// A number that none of its tags has.
    pub fn next_tag(&self) -> u64 {
        above(self.holds.values().map(|hold| hold.number))
    }
}

/// The least number above all of these.
fn above(numbers: impl Iterator<Item = u64>) -> u64 {
    numbers.max().map_or(0, |most| most + 1)
}

/// A dataset that a name has found.
#[derive(Clone, Debug)]
pub struct Dataset {
    pub name: String,
    /// Its name in the layer.
    pub path: String,
    /// The file system, or that which has the snapshot or bookmark.
    pub base: Rc<FileSystem>,
    pub part: Part,
}

#[derive(Clone, Debug)]
pub enum Part {
    Whole,
    Snapshot(Rc<Snapshot>),
    Bookmark(Rc<Bookmark>),
}

impl Dataset {
    pub fn kind(&self) -> Kind {
        match self.part {
            Part::Whole => self.base.kind,
            Part::Snapshot(_) => Kind::Snapshot,
            Part::Bookmark(_) => Kind::Bookmark,
        }
    }

    pub fn create_txg(&self) -> u64 {
        match &self.part {
            Part::Whole => self.base.create_txg,
            Part::Snapshot(snapshot) => snapshot.create_txg,
            Part::Bookmark(bookmark) => bookmark.create_txg,
        }
    }

    pub fn guid(&self) -> u64 {
        match &self.part {
            Part::Whole => self.base.guid,
            Part::Snapshot(snapshot) => snapshot.guid,
            Part::Bookmark(bookmark) => bookmark.guid,
        }
    }

    pub fn snapshot(&self) -> Option<&Rc<Snapshot>> {
        match &self.part {
            Part::Snapshot(snapshot) => Some(snapshot),
            _ => None,
        }
    }
}

/// All datasets of a pool. A copy is cheap, and shares what isn't changed.
#[derive(Clone, Debug)]
pub struct Tree {
    file_systems: BTreeMap<String, Rc<FileSystem>>,
    next_objset: u64,
}

impl Tree {
    pub fn new() -> Tree {
        Tree { file_systems: BTreeMap::new(), next_objset: 54 }
    }

    pub fn next_objset(&mut self) -> u64 {
        self.next_objset += 1;
        self.next_objset
    }

    pub fn get(&self, name: &str) -> Option<&Rc<FileSystem>> {
        self.file_systems.get(name)
    }

    /// A file system to change.
    pub fn edit(&mut self, name: &str) -> Option<&mut FileSystem> {
        self.file_systems.get_mut(name).map(Rc::make_mut)
    }

    /// A snapshot to change, but for its name.
    pub fn edit_snapshot(&mut self, name: &str) -> Option<&mut Snapshot> {
        let (base, component) = name.split_once('@')?;
        self.edit(base)?.snapshots.edit(component)
    }

    pub fn remove_snapshot(&mut self, name: &str) {
        if let Some((base, component)) = name.split_once('@') {
            self.edit(base).map(|it| it.snapshots.remove(component));
        }
    }

    pub fn insert(&mut self, name: String, file_system: FileSystem) {
        self.file_systems.insert(name, Rc::new(file_system));
    }

    pub fn remove(&mut self, name: &str) -> Option<Rc<FileSystem>> {
        self.file_systems.remove(name)
    }

    pub fn iter(&self) -> impl Iterator<Item = (&String, &Rc<FileSystem>)> {
        self.file_systems.iter()
    }

    /// The names of all file systems below one, in order.
    pub fn below(&self, name: &str) -> Vec<String> {
        let first = format!("{name}/");
        let range = self.file_systems.range::<str, _>((Bound::Included(first.as_str()), Bound::Unbounded));
        range.take_while(|(below, _)| below.starts_with(&first)).map(|(below, _)| below.clone()).collect()
    }

    /// Gives a file system and all below it other names.
    pub fn rename(&mut self, name: &str, new: &str) {
        for below in self.with_below(name) {
            if let Some(file_system) = self.file_systems.remove(&below) {
                self.file_systems.insert(format!("{new}{}", &below[name.len()..]), file_system);
            }
        }
    }

    /// A file system and all below it.
    pub fn with_below(&self, name: &str) -> Vec<String> {
        let mut names = vec![name.to_owned()];
        names.extend(self.below(name));
        names
    }

    /// The file systems right below one.
    pub fn children(&self, name: &str) -> Vec<String> {
        self.below(name).into_iter().filter(|below| name::parent(below) == Some(name)).collect()
    }

    pub fn whole(&self, name: &str) -> Option<Dataset> {
        let base = Rc::clone(self.get(name)?);
        Some(Dataset { name: name.to_owned(), path: name::in_layer(name), base, part: Part::Whole })
    }

    pub fn snapshot_of(&self, name: &str, base: &Rc<FileSystem>, snapshot: &Rc<Snapshot>) -> Dataset {
        let whole = [name, "@", &snapshot.name].concat();
        let path = name::in_layer(&whole);
        Dataset { name: whole, path, base: Rc::clone(base), part: Part::Snapshot(Rc::clone(snapshot)) }
    }

    pub fn bookmark_of(&self, name: &str, base: &Rc<FileSystem>, bookmark: &Rc<Bookmark>) -> Dataset {
        Dataset {
            name: format!("{name}#{}", bookmark.name),
            path: format!("{}#{}", name::in_layer(name), bookmark.number),
            base: Rc::clone(base),
            part: Part::Bookmark(Rc::clone(bookmark)),
        }
    }

    /// The dataset of a name.
    pub fn find(&self, name: &str) -> Option<Dataset> {
        let base = name::base(name);
        let file_system = self.get(base)?;
        if let Some(component) = name::snapshot(name) {
            return file_system.snapshots.get(component).map(|it| self.snapshot_of(base, file_system, it));
        }
        if let Some(component) = name::bookmark(name) {
            return file_system.bookmark(component).map(|it| self.bookmark_of(base, file_system, it));
        }
        self.whole(name)
    }

    pub fn has(&self, name: &str) -> bool {
        let Some(file_system) = self.get(name::base(name)) else { return false };
        match (name::snapshot(name), name::bookmark(name)) {
            (Some(component), _) => file_system.snapshots.get(component).is_some(),
            (None, Some(component)) => file_system.bookmark(component).is_some(),
            (None, None) => true,
        }
    }

    /// The snapshots of a file system, oldest first.
    pub fn snapshots(&self, name: &str) -> Vec<Dataset> {
        let Some(base) = self.get(name) else { return Vec::new() };
        let mut all = Vec::with_capacity(base.snapshots.len());
        all.extend(base.snapshots.iter().map(|it| self.snapshot_of(name, base, it)));
        all
    }

    pub fn bookmarks(&self, name: &str) -> Vec<Dataset> {
        let Some(base) = self.get(name) else { return Vec::new() };
        base.bookmarks.iter().map(|it| self.bookmark_of(name, base, it)).collect()
    }

    /// The name of the file system or snapshot that the layer calls so.
    pub fn named(&self, path: &str) -> Option<String> {
        name::out_of_layer(self.pool(), path)
    }

    /// The root's name, which stands before all others.
    fn pool(&self) -> &str {
        self.file_systems.keys().next().map_or("", String::as_str)
    }

    /// Takes away what the layer doesn't list.
    pub fn follow(&mut self, listing: &str) {
        let listed: HashSet<&str> = listing.split(' ').collect();
        self.file_systems.retain(|name, file_system| {
            let path = name::in_layer(name);
            let is_left = listed.contains(path.as_str());
            if is_left {
                keep_listed(file_system, &path, &listed);
            }
            is_left
        });
    }

    /// Gives a snapshot another name, and with `is_recursive` those of its name in all file systems below.
    pub fn rename_snapshot(&mut self, base: &str, old: &str, new: &str, is_recursive: bool) {
        for name in if is_recursive { self.with_below(base) } else { vec![base.to_owned()] } {
            if let Some(file_system) = self.edit(&name) {
                file_system.snapshots.rename(old, new);
            }
        }
    }

    /// Moves the oldest snapshots of a file system to its clone, whose own are younger.
    pub fn promote(&mut self, clone: &str, base: &str, count: usize) {
        let Some(base) = self.edit(base) else { return };
        let moved: Vec<Rc<Snapshot>> = base.snapshots.iter().take(count).cloned().collect();
        moved.iter().for_each(|it| drop(base.snapshots.remove(&it.name)));
        if let Some(clone) = self.edit(clone) {
            moved.into_iter().for_each(|it| clone.snapshots.add(it));
        }
    }
}

/// Takes away the snapshots and bookmarks of a file system that the layer doesn't list. Where all are listed it stays shared.
fn keep_listed(file_system: &mut Rc<FileSystem>, path: &str, listed: &HashSet<&str>) {
    let has_snapshot = |it: &Snapshot| listed.contains(format!("{path}@{}", name::spelt(&it.name)).as_str());
    let has_bookmark = |it: &Rc<Bookmark>| listed.contains(format!("{path}#{}", it.number).as_str());
    if !file_system.snapshots.iter().all(|it| has_snapshot(it)) || !file_system.bookmarks.iter().all(has_bookmark) {
        let changed = Rc::make_mut(file_system);
        changed.snapshots = changed.snapshots.iter().filter(|it| has_snapshot(it)).cloned().collect();
        changed.bookmarks.retain(has_bookmark);
    }
}

impl Default for Tree {
    fn default() -> Tree {
        Tree::new()
    }
}

#[cfg(test)]
mod tests {
    use super::*;
    use crate::snapshots::tests::snapshot;

    fn file_system() -> FileSystem {
        FileSystem {
            kind: Kind::FileSystem,
            guid: 1,
            creation: 0,
            create_txg: 1,
            objset: 1,
            local: Values::new(),
            received: Values::new(),
            hidden: BTreeSet::new(),
            is_mounted: false,
            mounted_at: None,
            is_over_refquota: false,
            mount_options: Vec::new(),
            partial: None,
            snapshots: Snapshots::default(),
            bookmarks: Vec::new(),
        }
    }

    fn tree() -> Tree {
        let mut tree = Tree::new();
        for name in ["tank", "tank/a", "tank/a/b", "tank/a-c"] {
            tree.insert(name.into(), file_system());
        }
        ["old", "new"].iter().for_each(|name| add(&mut tree, "tank/a", name));
        tree
    }

    fn add(tree: &mut Tree, base: &str, name: &str) {
        let objset = tree.next_objset();
        tree.edit(base).unwrap().snapshots.add(snapshot(name, objset));
    }

    #[test]
    fn names_and_paths_find_each_other() {
        let tree = tree();
        assert_eq!(tree.find("tank/a@new").unwrap().path, "p/a@new");
        assert_eq!(tree.named("p/a@new").as_deref(), Some("tank/a@new"));
        assert_eq!(tree.named("p/a-c").as_deref(), Some("tank/a-c"));
        assert_eq!((tree.named("-"), tree.named("")), (None, None));
        assert!(!tree.has("tank/a@none") && !tree.has("tank/x") && tree.has("tank/a@old"));
    }

    #[test]
    fn what_is_below_is_no_neighbour() {
        let tree = tree();
        assert_eq!(tree.below("tank/a"), ["tank/a/b"]);
        assert_eq!(tree.children("tank"), ["tank/a", "tank/a-c"]);
    }

    #[test]
    fn the_tree_follows_a_destroy() {
        let mut tree = tree();
        let before = tree.clone();
        tree.follow("p p/a p/a@new p/a-c p/a-c@old");
        assert!(!tree.has("tank/a/b") && !tree.has("tank/a@old") && tree.has("tank/a@new") && !tree.has("tank/a-c@old"));
        assert!(before.has("tank/a@old") && before.has("tank/a/b"));
    }

    #[test]
    fn a_promote_moves_the_oldest_snapshots() {
        let mut tree = tree();
        add(&mut tree, "tank/a-c", "own");
        tree.promote("tank/a-c", "tank/a", 1);
        let names = |name: &str| tree.snapshots(name).into_iter().map(|it| it.name).collect::<Vec<_>>();
        assert_eq!((names("tank/a-c"), names("tank/a")), (vec!["tank/a-c@old".into(), "tank/a-c@own".into()], vec!["tank/a@new".into()]));
    }

    #[test]
    fn snapshots_of_a_name_are_renamed_where_they_are() {
        let mut tree = tree();
        ["tank/a/b", "tank/a-c"].iter().for_each(|base| add(&mut tree, base, "new"));
        tree.rename_snapshot("tank/a", "new", "newer", true);
        assert!(tree.has("tank/a@old") && tree.has("tank/a@newer") && tree.has("tank/a/b@newer") && tree.has("tank/a-c@new"));
        tree.rename_snapshot("tank/a", "newer", "new", false);
        assert!(tree.has("tank/a@new") && tree.has("tank/a/b@newer"));
    }
}
