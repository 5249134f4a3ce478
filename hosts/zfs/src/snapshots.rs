//! The snapshots of a file system, oldest first, with an index by name.
//!
//! The tree before a command is kept to go back to, so what a command changes is copied. A list in one piece would be copied whole for each snapshot.
//! Here copies share all pieces but the one that has changed.

use crate::dataset::Snapshot;
use std::borrow::Borrow;
use std::rc::Rc;

/// The most entries of a piece.
const PIECE: usize = 64;

/// A map in the order of its keys, in pieces that copies share. No piece is empty.
#[derive(Clone, Debug)]
struct Pieces<K, V>(Vec<Rc<Vec<(K, V)>>>);

impl<K: Ord + Clone, V: Clone> Pieces<K, V> {
    /// The piece that has a key or would take it, and the place there.
    fn place<Q: Ord + ?Sized>(&self, key: &Q) -> (usize, Result<usize, usize>)
    where
        K: Borrow<Q>,
    {
        let is_before = |piece: &Rc<Vec<(K, V)>>| piece.first().is_some_and(|(first, _)| first.borrow() <= key);
        let piece = self.0.partition_point(is_before).saturating_sub(1);
        let place = self.0.get(piece).map_or(Err(0), |piece| piece.binary_search_by(|(it, _)| it.borrow().cmp(key)));
        (piece, place)
    }

    fn get<Q: Ord + ?Sized>(&self, key: &Q) -> Option<&V>
    where
        K: Borrow<Q>,
    {
        let (piece, place) = self.place(key);
        Some(&self.0.get(piece)?.get(place.ok()?)?.1)
    }

    fn edit(&mut self, key: &K) -> Option<&mut V> {
        let (piece, place) = self.place(key);
        Some(&mut Rc::make_mut(self.0.get_mut(piece)?).get_mut(place.ok()?)?.1)
    }

    /// Puts an entry in, or in the place of the one that has its key.
    fn insert(&mut self, key: K, value: V) {
        let (at, place) = self.place(&key);
        // Entries that come in order leave full pieces behind them.
        let Some(piece) = self.0.get_mut(at).filter(|_| place != Err(PIECE)) else {
            return self.0.insert(self.0.len().min(at + 1), Rc::new(vec![(key, value)]));
        };
        let piece = Rc::make_mut(piece);
        match place {
            Ok(place) => piece[place].1 = value,
            Err(place) => {
                piece.insert(place, (key, value));
                if piece.len() > PIECE {
                    let rest = piece.split_off(PIECE / 2);
                    self.0.insert(at + 1, Rc::new(rest));
                }
            }
        }
    }

    fn remove<Q: Ord + ?Sized>(&mut self, key: &Q) -> Option<V>
    where
        K: Borrow<Q>,
    {
        let (at, place) = self.place(key);
        let place = place.ok()?;
        let piece = Rc::make_mut(self.0.get_mut(at)?);
        let (_, value) = piece.remove(place);
        if piece.is_empty() {
            self.0.remove(at);
        }
        Some(value)
    }

    fn values(&self) -> impl DoubleEndedIterator<Item = &V> {
        self.0.iter().flat_map(|piece| piece.iter()).map(|(_, value)| value)
    }

    fn len(&self) -> usize {
        self.0.iter().map(|piece| piece.len()).sum()
    }
}

impl<K, V> Default for Pieces<K, V> {
    fn default() -> Pieces<K, V> {
        Pieces(Vec::new())
    }
}

/// Snapshots by age and by name.
#[derive(Clone, Debug, Default)]
pub struct Snapshots {
    /// By the numbers of their object sets, of which a younger one has a greater.
    by_number: Pieces<u64, Rc<Snapshot>>,
    /// The numbers by the names.
    numbers: Pieces<Rc<str>, u64>,
}

impl Snapshots {
    pub fn get(&self, name: &str) -> Option<&Rc<Snapshot>> {
        self.by_number.get(self.numbers.get(name)?)
    }

    /// A snapshot to change, but for its name and the number of its object set.
    pub fn edit(&mut self, name: &str) -> Option<&mut Snapshot> {
        self.by_number.edit(self.numbers.get(name)?).map(Rc::make_mut)
    }

    pub fn add(&mut self, snapshot: Rc<Snapshot>) {
        self.numbers.insert(Rc::clone(&snapshot.name), snapshot.objset);
        self.by_number.insert(snapshot.objset, snapshot);
    }

    pub fn remove(&mut self, name: &str) -> Option<Rc<Snapshot>> {
        let number = self.numbers.remove(name)?;
        self.by_number.remove(&number)
    }

    pub fn rename(&mut self, name: &str, new: &str) {
        if let Some(mut snapshot) = self.remove(name) {
            Rc::make_mut(&mut snapshot).name = new.into();
            self.add(snapshot);
        }
    }

    /// How many are older than the one of a name.
    pub fn place(&self, name: &str) -> Option<usize> {
        let (piece, place) = self.by_number.place(self.numbers.get(name)?);
        Some(self.by_number.0[..piece].iter().map(|piece| piece.len()).sum::<usize>() + place.ok()?)
    }

    /// Oldest first.
    pub fn iter(&self) -> impl DoubleEndedIterator<Item = &Rc<Snapshot>> {
        self.by_number.values()
    }

    /// The oldest of a guid.
    pub fn by_guid(&self, guid: u64) -> Option<&Rc<Snapshot>> {
        self.iter().find(|it| it.guid == guid)
    }

    pub fn len(&self) -> usize {
        self.by_number.len()
    }
}

impl FromIterator<Rc<Snapshot>> for Snapshots {
    fn from_iter<T: IntoIterator<Item = Rc<Snapshot>>>(all: T) -> Snapshots {
        let mut snapshots = Snapshots::default();
        all.into_iter().for_each(|snapshot| snapshots.add(snapshot));
        snapshots
    }
}

#[cfg(test)]
pub mod tests {
    use super::*;
    use crate::dataset::Values;
    use std::collections::{BTreeMap, BTreeSet};

    pub fn snapshot(name: &str, objset: u64) -> Rc<Snapshot> {
        Rc::new(Snapshot {
            name: name.into(),
            guid: objset,
            creation: 0,
            create_txg: 1,
            objset,
            local: Values::new(),
            received: Values::new(),
            hidden: BTreeSet::new(),
            volume_size: None,
            holds: BTreeMap::new(),
        })
    }

    fn names(snapshots: &Snapshots) -> Vec<&str> {
        snapshots.iter().map(|it| &*it.name).collect()
    }

    /// So many numbers in an order that goes all over them.
    fn mixed(count: u64) -> impl Iterator<Item = u64> {
        (0..count).map(move |number| number * 7919 % count)
    }

    #[test]
    fn snapshots_stand_by_age_and_are_found_by_name() {
        let count = 5 * PIECE as u64;
        let mut snapshots: Snapshots = mixed(count).map(|number| snapshot(&format!("{:x}", number ^ 5), number)).collect();
        let all: Vec<String> = (0..count).map(|number| format!("{:x}", number ^ 5)).collect();
        assert_eq!(names(&snapshots), all);
        for (place, name) in all.iter().enumerate() {
            assert_eq!((snapshots.place(name), snapshots.get(name).unwrap().guid), (Some(place), place as u64));
        }
        for number in mixed(count).filter(|number| number % 3 > 0) {
            assert_eq!(snapshots.remove(&all[number as usize]).unwrap().objset, number);
        }
        assert_eq!(names(&snapshots), all.iter().step_by(3).collect::<Vec<_>>());
        assert_eq!((snapshots.len(), snapshots.get(&all[1]).is_none()), (names(&snapshots).len(), true));
        assert!(snapshots.by_number.0.iter().all(|piece| !piece.is_empty() && piece.len() <= PIECE));
        for number in (0..count).step_by(3) {
            snapshots.remove(&all[number as usize]);
        }
        assert!(snapshots.by_number.0.is_empty() && snapshots.numbers.0.is_empty());
    }

    #[test]
    fn a_copy_shares_all_but_what_has_changed() {
        let before: Snapshots = (0..10 * PIECE as u64).map(|number| snapshot(&number.to_string(), number)).collect();
        let mut after = before.clone();
        let (edited, renamed) = (&*(2 * PIECE).to_string(), &*(3 * PIECE).to_string());
        after.add(snapshot("new", u64::MAX));
        after.edit(edited).unwrap().creation = 5;
        after.rename(renamed, "other");
        assert!(after.remove("0").is_some() && after.remove("0").is_none() && after.edit("0").is_none());
        assert_eq!((after.get(edited).unwrap().creation, after.place("other"), after.get(renamed).is_none()), (5, Some(3 * PIECE - 1), true));
        assert_eq!(after.by_guid(u64::MAX).map(|it| &*it.name), Some("new"));
        assert_eq!((before.get(edited).unwrap().creation, before.place(renamed), before.place("other")), (0, Some(3 * PIECE), None));
        assert_eq!(names(&before).len(), 10 * PIECE);
        let is_shared = |piece: &&Rc<_>| before.by_number.0.iter().any(|it| Rc::ptr_eq(it, piece));
        assert_eq!(after.by_number.0.iter().filter(is_shared).count(), 7);
    }
}
