//! `zfs hold`, `release` and `holds`.

use super::walk;
use crate::call::Call;
use crate::dataset::{Dataset, Hold};
use crate::failure::{Action, Failure, Outcome, Reason, Trying};
use crate::host::Host;
use crate::name;
use crate::output::{date, Column, Table};
use crate::property::Kinds;
use crate::usage::{Usage, ZfsCommand};
use crate::world::PoolThread;
use std::sync::Arc;

/// The most bytes of a tag.
const TAG_LIMIT: usize = 255;

/// What is done with a tag.
#[derive(Clone, Copy, Debug, PartialEq, Eq)]
enum Deed {
    Hold,
    Release,
}

impl Deed {
    fn usage(self) -> Usage {
        Usage::Zfs(if self == Deed::Hold { ZfsCommand::Hold } else { ZfsCommand::Release })
    }

    fn action(self, name: &str) -> Action {
        if self == Deed::Hold { Action::Hold(name.to_owned()) } else { Action::Release(name.to_owned()) }
    }
}

pub fn hold(call: &mut Call, words: &[String]) -> Outcome {
    run(call, words, Deed::Hold)
}

pub fn release(call: &mut Call, words: &[String]) -> Outcome {
    run(call, words, Deed::Release)
}

fn run(call: &mut Call, words: &[String], deed: Deed) -> Outcome {
    let options = call.options(words, if deed == Deed::Hold { "rt" } else { "r" }, deed.usage())?;
    let [tag, names @ ..] = &options.operands[..] else { return Err(Failure::Usage(deed.usage(), String::new())) };
    if names.is_empty() {
        return Err(Failure::Usage(deed.usage(), String::new()));
    }
    if deed == Deed::Hold && tag.starts_with('.') {
        return Err(Failure::Usage(deed.usage(), "tag may not start with '.'".into()));
    }
    let mut groups: Vec<(Arc<PoolThread>, Vec<String>)> = Vec::new();
    let (is_recursive, clock) = (options.has('r'), call.clock());
    for name in names {
        let (base, _) = name.split_once('@').ok_or_else(|| Failure::Told(format!("'{name}' is not a snapshot")))?;
        let pool = walk::open(call, base, Kinds::FV)?;
        match groups.iter_mut().find(|(one, _)| one.name == pool.name) {
            Some((_, group)) => group.push(name.clone()),
            None => groups.push((pool, vec![name.clone()])),
        }
    }
    for (pool, names) in groups {
        let tag = tag.clone();
        call.change(&pool, move |host| names.iter().try_for_each(|name| each(host, deed, &tag, name, is_recursive, clock)))?;
        call.log(&pool);
    }
    Ok(())
}

/// Does it with a snapshot, or with all of its name in a tree.
fn each(host: &mut Host, deed: Deed, tag: &str, name: &str, is_recursive: bool, clock: i64) -> Outcome {
    let (base, component) = name.split_once('@').unwrap_or((name, ""));
    let trees = if is_recursive { host.tree.with_below(base) } else { vec![base.to_owned()] };
    let all: Vec<String> = trees.iter().map(|tree| format!("{tree}@{component}")).filter(|it| host.tree.has(it)).collect();
    if all.is_empty() {
        let reason = if deed == Deed::Hold { Reason::NoDataset } else { Reason::NoTag };
        return Err(Failure::Cannot(deed.action(name), reason));
    }
    let has_tag = |host: &Host, name: &String| host.tree.find(name).and_then(|it| it.snapshot().map(|it| it.holds.contains_key(tag)));
    // A release in a tree passes over those that haven't the tag, unless none has it.
    let chosen: Vec<String> = match deed {
        Deed::Hold => all,
        Deed::Release => all.into_iter().filter(|name| has_tag(host, name) == Some(true)).collect(),
    };
    if chosen.is_empty() {
        return Err(Failure::Cannot(deed.action(name), Reason::NoTag));
    }
    for name in chosen {
        let done = if deed == Deed::Hold { host.hold(&name, tag, clock) } else { host.release(&name, tag) };
        done.trying(|| deed.action(&name))?;
    }
    Ok(())
}

impl Host {
    /// Puts a tag. It may have any character, so the layer has a number for it.
    pub fn hold(&mut self, name: &str, tag: &str, clock: i64) -> Result<(), Reason> {
        if tag.len() > TAG_LIMIT {
            return Err(Reason::TagTooLong);
        }
        let snapshot = self.tree.edit_snapshot(name).ok_or(Reason::NoDataset)?;
        if snapshot.holds.contains_key(tag) {
            return Err(Reason::TagExists);
        }
        let number = snapshot.next_tag();
        self.layer.order(&format!("hold {number} {}", name::in_layer(name)))?;
        snapshot.holds.insert(tag.to_owned(), Hold { time: clock, number });
        Ok(())
    }

    /// Takes a tag away. A snapshot whose destroy was deferred goes with its last.
    pub fn release(&mut self, name: &str, tag: &str) -> Result<(), Reason> {
        let snapshot = self.tree.edit_snapshot(name).ok_or(Reason::NoDataset)?;
        let number = snapshot.holds.get(tag).ok_or(Reason::NoTag)?.number;
        let path = name::in_layer(name);
        self.layer.order(&format!("release {number} {path}"))?;
        snapshot.holds.remove(tag);
        self.follow_snapshot(name, &path);
        Ok(())
    }
}

pub fn holds(call: &mut Call, words: &[String]) -> Outcome {
    let usage = Usage::Zfs(ZfsCommand::Holds);
    let options = call.options(words, "rHp", usage)?;
    if options.operands.is_empty() {
        return Err(Failure::Usage(usage, String::new()));
    }
    let mut found = 0;
    let mut rows = Vec::new();
    for name in &options.operands {
        match of_snapshot(call, name, options.has('r'), options.has('p')) {
            Ok((count, more)) => {
                found += count;
                rows.extend(more);
            }
            Err(failure) => call.note(&failure),
        }
    }
    let columns = ["NAME", "TAG", "TIMESTAMP"].map(Column::of_words).to_vec();
    call.output.text(&Table { columns, rows }.text(options.has('H')));
    if found == 0 {
        call.output.error("no datasets available");
    }
    Ok(())
}

/// The tags of a snapshot, or of all of its name in a tree, with how many snapshots they are.
fn of_snapshot(call: &Call, name: &str, is_recursive: bool, is_exact: bool) -> Outcome<(usize, Vec<Vec<String>>)> {
    let (base, component) = name.split_once('@').ok_or_else(|| Failure::Told(format!("'{name}' is not a snapshot")))?;
    let opened = if is_recursive { base } else { name };
    let kinds = if is_recursive { Kinds::FV } else { Kinds::SNAPSHOT };
    let pool = walk::open(call, opened, kinds)?;
    let (base, component) = (base.to_owned(), component.to_owned());
    pool.run(move |host| {
        let trees = if is_recursive { host.tree.with_below(&base) } else { vec![base] };
        let found: Vec<Dataset> = trees.iter().filter_map(|tree| host.tree.find(&format!("{tree}@{component}"))).collect();
        let rows = found.iter().flat_map(|dataset| {
            let holds = dataset.snapshot().map(|it| it.holds.clone()).unwrap_or_default();
            let row = |(tag, hold): (String, Hold)| {
                let time = if is_exact { hold.time.to_string() } else { date(hold.time) };
                vec![dataset.name.clone(), tag, time]
            };
            holds.into_iter().map(row).collect::<Vec<_>>()
        });
        (found.len(), rows.collect())
    })
}

#[cfg(test)]
mod tests {
    use super::*;
    use crate::host::tests::{host, make, snapshot};

    #[test]
    fn tags_keep_snapshots_and_may_have_blanks() {
        let mut host = host();
        make(&mut host, "tank/a");
        ["tank@s", "tank/a@s"].iter().for_each(|name| snapshot(&mut host, name));
        let tag = "a tag, of any kind!";
        host.change(|host| each(host, Deed::Hold, tag, "tank@s", true, 77)).unwrap();
        let held = host.open("tank/a@s").unwrap();
        assert_eq!((held.snapshot().unwrap().holds[tag].time, host.layer.number(&format!("get userrefs {}", held.path))), (77, Ok(1)));
        assert!(host.layer.order(&format!("destroy {}", held.path)).is_err());
        let again = host.change(|host| each(host, Deed::Hold, tag, "tank@s", false, 1)).unwrap_err();
        assert_eq!(again.to_string(), "cannot hold snapshot 'tank@s': tag already exists on this dataset\n");
        host.change(|host| each(host, Deed::Release, tag, "tank/a@s", false, 1)).unwrap();
        host.change(|host| each(host, Deed::Release, tag, "tank@s", true, 1)).unwrap();
        let none = host.change(|host| each(host, Deed::Release, tag, "tank@s", true, 1)).unwrap_err();
        assert_eq!(none.to_string(), "cannot release hold from snapshot 'tank@s': no such tag on this dataset\n");
    }

    #[test]
    fn a_deferred_snapshot_goes_with_its_last_tag() {
        let mut host = host();
        ["tank@s", "tank@t"].iter().for_each(|name| snapshot(&mut host, name));
        ["one", "two"].iter().for_each(|tag| host.change(|host| each(host, Deed::Hold, tag, "tank@s", false, 1)).unwrap());
        let both = ["tank@s", "tank@t"].map(|name| host.open(name).unwrap());
        host.change(|host| host.destroy_snapshots(&both, true)).unwrap();
        assert!(host.tree.has("tank@s") && !host.tree.has("tank@t"));
        host.change(|host| each(host, Deed::Release, "one", "tank@s", false, 1)).unwrap();
        assert!(host.tree.has("tank@s"));
        host.change(|host| each(host, Deed::Release, "two", "tank@s", false, 1)).unwrap();
        assert_eq!((host.tree.has("tank@s"), host.layer.ask("list").as_deref()), (false, Ok("p")));
    }
}
