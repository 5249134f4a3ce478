//! `zfs snapshot` and `zfs bookmark`.

use super::walk;
use crate::call::Call;
use crate::dataset::{Dataset, Kind, Part, Values};
use crate::failure::{Action, Failure, Outcome, Reason, Trying};
use crate::host::Host;
use crate::layer::Refusal;
use crate::name;
use crate::property::Kinds;
use crate::setting::{check, settings, Checked};
use crate::usage::{Usage, ZfsCommand};
use std::collections::HashSet;

const SNAPSHOT: Usage = Usage::Zfs(ZfsCommand::Snapshot);
const BOOKMARK: Usage = Usage::Zfs(ZfsCommand::Bookmark);

pub fn snapshot(call: &mut Call, words: &[String]) -> Outcome {
    let options = call.options(words, "ro:", SNAPSHOT)?;
    let settings = settings(options.arguments('o'))?;
    let names = options.operands.clone();
    if names.is_empty() {
        return Err(Failure::Usage(SNAPSHOT, "missing snapshot argument".into()));
    }
    for name in &names {
        let base = name.split_once('@').map(|(base, _)| base).ok_or_else(|| Failure::Usage(SNAPSHOT, String::new()))?;
        let opened = walk::open(call, base, Kinds::FV);
        opened.map_err(|failure| Failure::Usage(SNAPSHOT, failure.to_string().trim_end().to_owned()))?;
    }
    let is_recursive = options.has('r');
    let made = make(call, &names, is_recursive, &settings);
    if let Err(failure) = made {
        call.note(&failure);
        if is_recursive || names.len() > 1 {
            call.output.error("no snapshots were created");
        }
    }
    Ok(())
}

fn make(call: &Call, names: &[String], is_recursive: bool, settings: &[crate::setting::Setting]) -> Outcome {
    let new = |name: &String| name::check(name, Kinds::SNAPSHOT, true).trying(|| Action::CreateSnapshot(name.clone()));
    names.iter().try_for_each(new)?;
    let mut local = Values::new();
    for setting in settings {
        match check(setting, Kind::Snapshot, true).trying(|| Action::CreateSnapshots)? {
            Checked::User(name, value) => local.insert(name, value),
            _ => return Err(Failure::Cannot(Action::CreateSnapshots, Reason::FixedForSnapshots)),
        };
    }
    let pool = call.pool_of(&names[0])?;
    if names.iter().any(|name| name::pool(name) != pool.name) {
        return Err(Failure::Cannot(Action::CreateSnapshots, Reason::Text("multiple snapshots of same fs not allowed".into())));
    }
    let (names, clock) = (names.to_vec(), call.clock());
    call.change(&pool, move |host| make_all(host, &names, is_recursive, clock, &local))?;
    call.log(&pool);
    Ok(())
}

fn make_all(host: &mut Host, names: &[String], is_recursive: bool, clock: i64, local: &Values) -> Outcome {
    let mut all = Vec::new();
    for name in names {
        let (base, component) = name.split_once('@').unwrap_or((name, ""));
        all.push(name.clone());
        if is_recursive {
            let below = host.tree.below(base);
            all.extend(below.iter().filter(|it| !host.is_receiving(it)).map(|below| format!("{below}@{component}")));
        }
    }
    let mut seen = HashSet::new();
    all.retain(|name| seen.insert(name.clone()));
    all.iter().try_for_each(|name| name::check(name, Kinds::SNAPSHOT, true).trying(|| Action::CreateSnapshot(name.clone())))?;
    let taken = all.iter().filter(|name| host.tree.has(name));
    let taken: Vec<Failure> = taken.map(|name| Failure::Cannot(Action::CreateSnapshot(name.clone()), Reason::Exists)).collect();
    if !taken.is_empty() {
        return Err(Failure::Several(taken));
    }
    host.make_snapshots(&all, clock, local).map_err(|refusal| match refusal {
        Refusal::Exists => Failure::Cannot(Action::CreateSnapshots, Reason::Text("multiple snapshots of same fs not allowed".into())),
        refusal => Failure::Cannot(Action::CreateSnapshots, refusal.into()),
    })
}

pub fn bookmark(call: &mut Call, words: &[String]) -> Outcome {
    let options = call.options(words, "", BOOKMARK)?;
    let usage = |reason: String| Failure::Usage(BOOKMARK, reason);
    let (source, target) = match &options.operands[..] {
        [] => return Err(usage("missing source argument".into())),
        [_] => return Err(usage("missing bookmark argument".into())),
        [source, target, ..] => (source.clone(), target.clone()),
    };
    if !source.contains(['@', '#']) {
        return Err(usage(format!("invalid source name '{source}': must contain a '@' or '#'")));
    }
    if !target.contains('#') {
        return Err(usage(format!("invalid bookmark name '{target}': must contain a '#'")));
    }
    let (source, target) = match (source.starts_with(['@', '#']), target.starts_with('#')) {
        (true, true) => return Err(usage("either source or bookmark must be specified as full dataset paths".into())),
        (true, false) => (format!("{}{source}", name::base(&target)), target),
        (false, true) => (source.clone(), format!("{}{target}", name::base(&source))),
        (false, false) => (source, target),
    };
    let kinds = if source.contains('@') { Kinds::SNAPSHOT } else { Kinds::BOOKMARK };
    let pool = walk::open(call, &source, kinds).map_err(|failure| usage(failure.to_string().trim_end().to_owned()))?;
    let action = Action::CreateBookmark(target.clone());
    if name::pool(&target) != pool.name {
        return Err(Failure::Cannot(action, Reason::Text("bookmark is in a different pool".into())));
    }
    call.change(&pool, move |host| make_bookmark(host, &source, &target).map_err(|reason| Failure::Cannot(action, reason)))?;
    call.log(&pool);
    Ok(())
}

fn make_bookmark(host: &mut Host, source: &str, target: &str) -> Result<(), Reason> {
    name::check(target, Kinds::BOOKMARK, true).map_err(|_| Reason::Text("invalid argument".into()))?;
    let from = host.tree.find(source).ok_or(Reason::NoDataset)?;
    let (base, name) = target.split_once('#').ok_or(Reason::BookmarkExpected)?;
    if !host.tree.has(base) {
        return Err(Reason::NoDataset);
    }
    if host.tree.has(target) {
        return Err(Reason::Text("bookmark exists".into()));
    }
    if base != name::base(source) {
        return Err(Reason::Text("source is not an ancestor of the new bookmark's dataset".into()));
    }
    match &from.part {
        Part::Bookmark(_) => host.copy_bookmark(&from, name),
        _ => host.make_bookmark(&from, base, name).map_err(Reason::from),
    }
}

impl Host {
    /// A bookmark of a bookmark stands for the layer's same.
    fn copy_bookmark(&mut self, from: &Dataset, name: &str) -> Result<(), Reason> {
        let Part::Bookmark(bookmark) = &from.part else { return Err(Reason::NoDataset) };
        let mut copy = (**bookmark).clone();
        copy.name = name.to_owned();
        let base = self.tree.edit(name::base(&from.name)).ok_or(Reason::NoDataset)?;
        base.bookmarks.push(std::rc::Rc::new(copy));
        Ok(())
    }

    /// Whether a file system is there for a cut receive alone.
    pub fn is_receiving(&self, name: &str) -> bool {
        self.tree.get(name).and_then(|it| it.partial.as_ref()).is_some_and(|partial| partial.is_fresh)
    }
}

#[cfg(test)]
mod tests {
    use super::*;
    use crate::host::tests::{host, make, snapshot};

    #[test]
    fn a_bookmark_of_a_bookmark_stands_after_the_first() {
        let mut host = host();
        make(&mut host, "tank/a");
        snapshot(&mut host, "tank/a@s");
        host.change(|host| {
            make_bookmark(host, "tank/a@s", "tank/a#one").unwrap();
            make_bookmark(host, "tank/a#one", "tank/a#two").unwrap();
            Ok(())
        })
        .unwrap();
        assert_eq!(make_bookmark(&mut host, "tank/a@s", "tank/a#two"), Err(Reason::Text("bookmark exists".into())));
        let one = host.open("tank/a#one").unwrap();
        host.remove_bookmark(&one).unwrap();
        host.follow_layer();
        assert!(host.tree.has("tank/a#two") && !host.tree.has("tank/a#one"));
        // The first's name is free, and the copy stands for the layer's as before.
        make_bookmark(&mut host, "tank/a@s", "tank/a#one").unwrap();
        assert_eq!(host.layer.ask("list").unwrap(), "p p/a p/a@s p/a#0 p/a#1");
        for name in ["tank/a#two", "tank/a#one"] {
            let bookmark = host.open(name).unwrap();
            host.remove_bookmark(&bookmark).unwrap();
        }
        assert_eq!(host.layer.ask("list").unwrap().matches('#').count(), 0);
    }

    #[test]
    fn snapshots_of_a_tree_are_all_or_none() {
        let mut host = host();
        make(&mut host, "tank/a");
        make(&mut host, "tank/a/b");
        snapshot(&mut host, "tank/a/b@s");
        let outcome = host.change(|host| make_all(host, &["tank/a@s".into()], true, 1, &Values::new()));
        assert_eq!(outcome.unwrap_err().to_string(), "cannot create snapshot 'tank/a/b@s': dataset already exists\n");
        assert!(!host.tree.has("tank/a@s"));
        host.change(|host| make_all(host, &["tank/a@t".into()], true, 1, &Values::new())).unwrap();
        let groups = ["tank/a@t", "tank/a/b@t"].map(|name| host.open(name).unwrap().create_txg());
        assert_eq!(groups[0], groups[1]);
    }
}
