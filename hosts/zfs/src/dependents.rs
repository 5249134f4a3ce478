//! What depends on a file system or a snapshot, in the order in which OpenZFS's programs meet it: file systems below, then snapshots, and before each
//! its clones. Each stands after all that depends on it.

use crate::dataset::{Dataset, Part, Tree};
use crate::failure::{Failure, Outcome};
use crate::host::Host;
use std::collections::{HashMap, HashSet};

/// The clones of each snapshot that has some, in order. Those that were destroyed since are passed over.
pub type Clones = HashMap<String, Vec<String>>;

/// What the names are wanted for.
#[derive(Clone, Copy, Debug, PartialEq, Eq)]
pub enum Purpose {
    /// To tell what depends. A file system that depends on itself is passed over where it is met again.
    Check,
    /// To tell what a destroy would meet. Here and in a destroy a file system that depends on itself is refused.
    DryRun,
    /// To destroy. What was met is gone then, so nothing is met twice.
    Destroy,
}

/// So many names are told as often as they are met, after that each once. Where each file system is a clone of the one above it, each is met twice as
/// often as that one.
const REPEATED: usize = 1 << 18;

/// The names that were met, and whether that was all.
#[derive(Clone, Debug)]
pub struct Dependents {
    pub names: Vec<String>,
    pub outcome: Outcome,
}

impl Host {
    /// The clones of all snapshots, by the origins that the layer tells.
    pub fn all_clones(&mut self) -> Clones {
        let names: Vec<String> = self.tree.iter().map(|(name, _)| name.clone()).collect();
        let mut clones = Clones::new();
        for name in names {
            if let Some(origin) = self.origin(&name) {
                clones.entry(origin).or_default().push(name);
            }
        }
        clones
    }
}

impl Dependents {
    pub fn of(dataset: &Dataset, tree: &Tree, clones: &Clones, purpose: Purpose) -> Dependents {
        let mut walk = Walk { tree, clones, purpose, way: Vec::new(), done: HashSet::new(), met: Vec::new() };
        let outcome = match dataset.part {
            Part::Bookmark(_) => Ok(()),
            Part::Snapshot(_) => walk.clones(&dataset.name),
            Part::Whole => walk.below(&dataset.name),
        };
        Dependents { names: walk.met, outcome }
    }
}

fn recursive(name: &str) -> Failure {
    Failure::Told(format!("cannot determine dependent datasets: recursive dependency at '{name}'"))
}

struct Walk<'a> {
    tree: &'a Tree,
    clones: &'a Clones,
    purpose: Purpose,
    /// The file systems that the walk is in, the first one first.
    way: Vec<String>,
    /// The file systems that were met with all that depends on them.
    done: HashSet<String>,
    met: Vec<String>,
}

impl Walk<'_> {
    /// Meets what depends on a file system, and then the file system.
    fn file_system(&mut self, name: &str) -> Outcome {
        if self.way.iter().any(|it| it == name) {
            return if self.purpose == Purpose::Check { Ok(()) } else { Err(recursive(name)) };
        }
        let repeated = if self.purpose == Purpose::Destroy { 0 } else { REPEATED };
        let is_over = self.met.len() >= repeated && self.done.contains(name);
        if is_over || !self.tree.has(name) {
            return Ok(());
        }
        self.below(name)?;
        self.met.push(name.to_owned());
        Ok(())
    }

    /// Meets what depends on a file system.
    fn below(&mut self, name: &str) -> Outcome {
        let tree = self.tree;
        self.way.push(name.to_owned());
        for child in tree.children(name) {
            self.file_system(&child)?;
        }
        for snapshot in tree.get(name).iter().flat_map(|it| it.snapshots.iter()) {
            let snapshot = format!("{name}@{}", snapshot.name);
            self.clones(&snapshot)?;
            self.met.push(snapshot);
        }
        self.way.pop();
        self.done.insert(name.to_owned());
        Ok(())
    }

    fn clones(&mut self, snapshot: &str) -> Outcome {
        let clones = self.clones;
        clones.get(snapshot).into_iter().flatten().try_for_each(|clone| self.file_system(clone))
    }
}

#[cfg(test)]
mod tests {
    use super::*;
    use crate::host::tests::{host, make, snapshot};

    /// A tree of these file systems and snapshots, of which some are clones.
    fn family(names: &[&str], clones: &[(&str, &str)]) -> (Host, Clones) {
        let mut host = host();
        for name in names {
            if name.contains('@') { snapshot(&mut host, name) } else { make(&mut host, name) }
        }
        let mut by_origin = Clones::new();
        clones.iter().for_each(|(clone, origin)| by_origin.entry((*origin).into()).or_default().push((*clone).into()));
        (host, by_origin)
    }

    fn met((host, clones): &(Host, Clones), name: &str, purpose: Purpose) -> (String, Outcome) {
        let dependents = Dependents::of(&host.tree.find(name).unwrap(), &host.tree, clones, purpose);
        (dependents.names.join(" "), dependents.outcome)
    }

    #[test]
    fn what_depends_on_itself_is_passed_over_or_refused() {
        let family = family(&["tank/p", "tank/p/b", "tank/p/c", "tank/p/c@s", "tank/p/d"], &[("tank/p", "tank/p/c@s")]);
        assert_eq!(met(&family, "tank/p", Purpose::Check), ("tank/p/b tank/p/c@s tank/p/c tank/p/d".into(), Ok(())));
        assert_eq!(met(&family, "tank/p/c", Purpose::Check), ("tank/p/b tank/p/d tank/p tank/p/c@s".into(), Ok(())));
        assert_eq!(met(&family, "tank/p/c@s", Purpose::Check), ("tank/p/b tank/p/c@s tank/p/c tank/p/d tank/p".into(), Ok(())));
        for purpose in [Purpose::DryRun, Purpose::Destroy] {
            assert_eq!(met(&family, "tank/p", purpose), ("tank/p/b".into(), Err(recursive("tank/p"))));
            assert_eq!(met(&family, "tank/p/c", purpose), ("tank/p/b".into(), Err(recursive("tank/p/c"))));
            assert_eq!(met(&family, "tank/p/c@s", purpose), ("tank/p/b".into(), Err(recursive("tank/p"))));
            assert_eq!(met(&family, "tank/p/d", purpose), (String::new(), Ok(())));
        }
    }

    #[test]
    fn a_clone_beside_its_origin_is_met_twice_until_it_is_destroyed() {
        let family = family(&["tank/p", "tank/p/b", "tank/p/b@s", "tank/p/c"], &[("tank/p/c", "tank/p/b@s")]);
        for purpose in [Purpose::Check, Purpose::DryRun] {
            assert_eq!(met(&family, "tank/p", purpose), ("tank/p/c tank/p/b@s tank/p/b tank/p/c".into(), Ok(())));
        }
        assert_eq!(met(&family, "tank/p", Purpose::Destroy), ("tank/p/c tank/p/b@s tank/p/b".into(), Ok(())));
    }

    #[test]
    fn clones_of_what_is_above_them_are_told_so_many_times_only() {
        let names: Vec<String> = (1..=40).map(|depth| format!("tank{}", "/p".repeat(depth))).collect();
        let snapshots: Vec<String> = names.iter().map(|name| format!("{name}@s")).collect();
        let all: Vec<&str> = names.iter().chain(&snapshots).map(String::as_str).collect();
        let clones: Vec<(&str, &str)> = names.iter().skip(1).zip(&snapshots).map(|(clone, origin)| (clone.as_str(), origin.as_str())).collect();
        let family = family(&all, &clones);
        let count = |purpose| met(&family, "tank/p", purpose).0.split(' ').count();
        assert!((REPEATED..REPEATED + all.len()).contains(&count(Purpose::Check)));
        assert_eq!(count(Purpose::Destroy), all.len() - 1);
    }
}
