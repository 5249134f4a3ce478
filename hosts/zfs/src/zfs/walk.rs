//! Which datasets `list` and `get` go through, in the order of names.

use crate::call::Call;
use crate::dataset::{Dataset, Kind};
use crate::failure::{Action, Failure, Outcome, Reason, Trying};
use crate::host::Host;
use crate::name;
use crate::property::Kinds;
use crate::usage::Usage;
use crate::world::PoolThread;
use std::path::Path;
use std::rc::Rc;
use std::sync::Arc;

/// What is asked for.
#[derive(Clone, Debug)]
pub struct Walk {
    pub kinds: Kinds,
    pub is_recursive: bool,
    /// How many levels below an operand.
    pub depth: Option<usize>,
}

/// Datasets to begin with, all of one pool.
pub struct Start {
    pub pool: Arc<PoolThread>,
    pub names: Vec<String>,
}

impl Walk {
    /// Kinds by their words with commas between them; none of no words.
    pub fn kinds_of(words: &str, usage: Usage) -> Outcome<Kinds> {
        words.split_terminator(',').try_fold(Kinds::NONE, |kinds, word| {
            let more = match word {
                "filesystem" | "fs" => Kinds::FILE_SYSTEM,
                "volume" | "vol" => Kinds::VOLUME,
                "snapshot" | "snap" => Kinds::SNAPSHOT,
                "bookmark" => Kinds::BOOKMARK,
                "all" => Kinds::ALL,
                _ => return Err(Failure::Usage(usage, format!("invalid type '{word}'"))),
            };
            Ok(kinds.with(more))
        })
    }

    /// A depth, 0 or more.
    pub fn depth_of(word: &str, usage: Usage) -> Outcome<usize> {
        match word.parse::<i64>() {
            Ok(depth) => usize::try_from(depth).map_err(|_| Failure::Usage(usage, "Depth can not be negative.".into())),
            Err(_) => Err(Failure::Usage(usage, format!("{word} is not an integer"))),
        }
    }

    /// The kinds of operands: with recursion those that have others below.
    fn operand_kinds(&self) -> Kinds {
        if !self.is_recursive {
            return self.kinds;
        }
        let parts = Kinds::SNAPSHOT.with(Kinds::BOOKMARK);
        self.kinds.with(Kinds::FILE_SYSTEM).with(if self.kinds.meets(parts) { Kinds::VOLUME } else { Kinds::NONE })
    }

    /// The pools and names to begin with. An operand that isn't there is told, and left out.
    pub fn starts(&self, call: &mut Call, operands: &[String]) -> Vec<Start> {
        if operands.is_empty() {
            return call.world.pools().into_iter().map(|pool| Start { names: vec![pool.name.clone()], pool }).collect();
        }
        let mut starts: Vec<Start> = Vec::new();
        for operand in operands {
            match self.opened(call, operand) {
                Ok((pool, name)) => match starts.iter_mut().find(|start| start.pool.name == pool.name) {
                    Some(start) => start.names.push(name),
                    None => starts.push(Start { names: vec![name], pool }),
                },
                Err(failure) => {
                    call.note(&failure);
                    call.status = crate::protocol::Status::Failed;
                }
            }
        }
        starts
    }

    fn opened(&self, call: &Call, operand: &str) -> Outcome<(Arc<PoolThread>, String)> {
        if operand.starts_with('/') || operand.starts_with("./") || operand.starts_with("../") || operand == "." {
            return by_path(call, operand);
        }
        let kinds = self.operand_kinds();
        open(call, operand, kinds).map(|pool| (pool, operand.to_owned()))
    }

    /// The datasets of a pool from these names on.
    pub fn datasets(&self, host: &Host, names: &[String]) -> Vec<Dataset> {
        let mut found = Vec::new();
        for name in names {
            match host.tree.find(name) {
                Some(dataset) if matches!(dataset.kind(), Kind::Snapshot | Kind::Bookmark) => found.push(dataset),
                Some(_) => self.go_below(host, name, &mut found),
                None => {}
            }
        }
        if names.len() > 1 {
            found.sort_by_cached_key(order);
            found.dedup_by(|one, other| one.name == other.name);
        }
        found.retain(|dataset| self.kinds.has(dataset.kind()));
        found
    }

    fn go_below(&self, host: &Host, name: &str, found: &mut Vec<Dataset>) {
        let names = if self.is_recursive && self.depth != Some(0) { host.tree.with_below(name) } else { vec![name.to_owned()] };
        let top = name.matches('/').count();
        for below in names {
            let level = below.matches('/').count() - top;
            if self.depth.is_some_and(|depth| level > depth) {
                continue;
            }
            let has_parts = self.is_recursive && self.depth.is_none_or(|depth| level < depth);
            self.push(host, &below, has_parts, found);
        }
    }

    /// A file system, and its snapshots and bookmarks where they are wanted.
    fn push(&self, host: &Host, name: &str, has_parts: bool, found: &mut Vec<Dataset>) {
        let Some(base) = host.tree.get(name) else { return };
        if self.kinds.has(base.kind) {
            found.extend(host.tree.whole(name));
        }
        if has_parts && self.kinds.has(Kind::Snapshot) {
            found.reserve(base.snapshots.len());
            found.extend(base.snapshots.iter().map(|it| host.tree.snapshot_of(name, base, it)));
        }
        if has_parts && self.kinds.has(Kind::Bookmark) {
            let mut bookmarks: Vec<_> = base.bookmarks.iter().map(Rc::clone).collect();
            bookmarks.sort_by(|one, other| one.name.cmp(&other.name));
            found.extend(bookmarks.iter().map(|it| host.tree.bookmark_of(name, base, it)));
        }
    }
}

/// The order of a listing: by file system, then snapshots by their age, then bookmarks by name.
pub fn order(dataset: &Dataset) -> (String, u8, u64, String) {
    let base = name::base(&dataset.name).to_owned();
    match dataset.kind() {
        Kind::FileSystem | Kind::Volume => (base, 0, 0, String::new()),
        Kind::Snapshot => (base, 1, dataset.create_txg(), dataset.name.clone()),
        Kind::Bookmark => (base, 2, 0, dataset.name.clone()),
    }
}

/// The pool of a dataset that is there and is of one of these kinds.
pub fn open(call: &Call, dataset: &str, kinds: Kinds) -> Outcome<Arc<PoolThread>> {
    let action = || Action::Open(dataset.to_owned());
    name::check(dataset, kinds, false).trying(action)?;
    let pool = call.pool_of(dataset)?;
    let name = dataset.to_owned();
    let (found, has_base) = pool.run(move |host| (host.tree.find(&name).map(|it| it.kind()), host.tree.has(name::base(&name))))?;
    match found {
        None if has_base && dataset.contains('#') => Err(Failure::Cannot(action(), Reason::Text("no such pool or dataset".into()))),
        None => Err(Failure::no_dataset(dataset)),
        Some(kind) if !kinds.has(kind) => Err(Failure::Cannot(action(), Reason::WrongKind)),
        Some(_) => Ok(pool),
    }
}

/// The file system whose mountpoint a path is, or stands in where it is there: nothing is mounted, so a mountpoint needn't be.
fn by_path(call: &Call, operand: &str) -> Outcome<(Arc<PoolThread>, String)> {
    let whole = Path::new(&call.request.folder).join(operand);
    let path = whole.to_string_lossy().trim_end_matches("/.").trim_end_matches('/').to_owned();
    let is_there = whole.exists();
    let mut best: Option<(usize, Arc<PoolThread>, String)> = None;
    for pool in call.world.pools() {
        let path = path.clone();
        let found = pool.run(move |host| {
            let holds = |place: &str| path == place || is_there && name::is_below(&path, place);
            host.mounted().into_iter().filter(|(_, place)| holds(place)).map(|(name, place)| (place.len(), name)).max()
        })?;
        if let Some((length, name)) = found.filter(|(length, _)| best.as_ref().is_none_or(|best| *length > best.0)) {
            best = Some((length, pool, name));
        }
    }
    let reason = if is_there { "not a ZFS filesystem" } else { "No such file or directory" };
    best.map(|(_, pool, name)| (pool, name)).ok_or_else(|| Failure::Told(format!("cannot open '{operand}': {reason}")))
}
