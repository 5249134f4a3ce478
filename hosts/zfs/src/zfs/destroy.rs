//! `zfs destroy`.

use super::walk;
use crate::call::Call;
use crate::dataset::{Dataset, Kind, Snapshot};
use crate::dependents::{Clones, Dependents, Purpose};
use crate::failure::{Action, Failure, Outcome, Trying};
use crate::host::Host;
use crate::name;
use crate::options::Options;
use crate::output::Output;
use crate::property::Kinds;
use crate::protocol::Status;
use crate::size;
use crate::snapshots::Snapshots;
use crate::usage::{Usage, ZfsCommand};
use std::mem;
use std::ops::Range;
use std::rc::Rc;

const USAGE: Usage = Usage::Zfs(ZfsCommand::Destroy);

/// What the options say.
#[derive(Clone, Copy, Debug)]
struct Manner {
    is_recursive: bool,
    with_clones: bool,
    is_deferred: bool,
    is_dry: bool,
    is_verbose: bool,
    is_scripted: bool,
}

impl Manner {
    fn of(options: &Options) -> Manner {
        Manner {
            is_recursive: options.has('r') || options.has('R'),
            with_clones: options.has('R'),
            is_deferred: options.has('d'),
            is_dry: options.has('n'),
            is_verbose: options.has('v') || options.has('p'),
            is_scripted: options.has('p'),
        }
    }

    fn tell(self, output: &mut Output, name: &str) {
        match (self.is_scripted, self.is_dry) {
            (true, _) => output.line(&format!("destroy\t{name}")),
            (false, true) => output.line(&format!("would destroy {name}")),
            (false, false) => output.line(&format!("will destroy {name}")),
        }
    }

    fn tell_reclaimed(self, output: &mut Output, bytes: u64) {
        match (self.is_scripted, self.is_dry) {
            (true, _) => output.line(&format!("reclaim\t{bytes}")),
            (false, true) => output.line(&format!("would reclaim {}", size::bytes(bytes))),
            (false, false) => output.line(&format!("will reclaim {}", size::bytes(bytes))),
        }
    }
}

pub fn run(call: &mut Call, words: &[String]) -> Outcome {
    let options = call.options(words, "vpndfrR", USAGE)?;
    let target = match &options.operands[..] {
        [] => return Err(Failure::Usage(USAGE, "missing dataset argument".into())),
        [target] => target.clone(),
        _ => return Err(Failure::Usage(USAGE, "too many arguments".into())),
    };
    let manner = Manner::of(&options);
    let base = match target.split_once('@') {
        Some((base, _)) => base.to_owned(),
        None if target.contains('#') => return bookmark(call, &target, manner),
        None => target.clone(),
    };
    let kinds = if manner.is_deferred && !target.contains('@') { Kinds::SNAPSHOT } else { Kinds::FV };
    let pool = walk::open(call, &base, kinds)?;
    let folder = call.request.folder.clone();
    let (output, outcome) = pool.run(move |host| {
        let mut output = Output::default();
        let mut run = |host: &mut Host| match target.split_once('@') {
            Some((base, spec)) => snapshots(host, base, spec, manner, &mut output),
            None => file_system(host, &target, &folder, manner, &mut output),
        };
        let outcome = if manner.is_dry { run(host) } else { host.change(run) };
        (output, outcome)
    })?;
    // What was told before a refusal is told all the same.
    call.output.append(output);
    outcome?;
    if !manner.is_dry {
        call.log(&pool);
    }
    Ok(())
}

/// Destroys a bookmark. The layer's own goes with the last that stands for it.
fn bookmark(call: &mut Call, target: &str, manner: Manner) -> Outcome {
    let refused = [(manner.is_dry, "dryrun"), (manner.is_deferred, "defer destroy"), (manner.is_recursive, "recursive")];
    if let Some((_, what)) = refused.into_iter().find(|(is_asked, _)| *is_asked) {
        call.output.error(&format!("{what} is not supported with bookmark"));
        call.status = Status::Other(255);
        return Ok(());
    }
    let missing = || Failure::Told(format!("bookmark '{target}' does not exist."));
    let pool = call.world.pool_of(target).ok_or_else(missing)?;
    let (name, missing) = (target.to_owned(), missing());
    call.change(&pool, move |host| {
        let dataset = host.tree.find(&name).ok_or(missing)?;
        host.remove_bookmark(&dataset).trying(|| Action::Destroy(name))
    })?;
    call.log(&pool);
    Ok(())
}

fn file_system(host: &mut Host, target: &str, folder: &str, manner: Manner, output: &mut Output) -> Outcome {
    let dataset = host.open(target)?;
    let is_root = !target.contains('/');
    if is_root && !manner.is_recursive {
        return Err(Failure::Told(format!(
            "cannot destroy '{target}': operation does not apply to pools\n\
             use 'zfs destroy -r {target}' to destroy all datasets in the pool\n\
             use 'zpool destroy {target}' to destroy the pool itself"
        )));
    }
    let clones = host.all_clones();
    if !manner.with_clones {
        check_dependents(host, &dataset, &clones, manner.is_recursive)?;
    }
    let purpose = if manner.is_dry { Purpose::DryRun } else { Purpose::Destroy };
    tell_doomed(host, &dataset, &clones, purpose, manner, output)?;
    if manner.is_verbose {
        manner.tell(output, target);
    }
    if manner.is_dry {
        return Ok(());
    }
    host.destroy_tree(target)?;
    host.check_unused(target, folder)
}

/// Tells what goes before a dataset where that is asked for, up to where one that depends on itself is met.
fn tell_doomed(host: &Host, dataset: &Dataset, clones: &Clones, purpose: Purpose, manner: Manner, output: &mut Output) -> Outcome {
    let dependents = Dependents::of(dataset, &host.tree, clones, purpose);
    if manner.is_verbose {
        dependents.names.iter().for_each(|name| manner.tell(output, name));
    }
    dependents.outcome
}

/// Fails where something depends on a dataset that the options don't say to destroy.
fn check_dependents(host: &Host, dataset: &Dataset, clones: &Clones, is_recursive: bool) -> Outcome {
    let target = &dataset.name;
    let dependents = Dependents::of(dataset, &host.tree, clones, Purpose::Check).names;
    let is_inside = |name: &str| name::is_below(name, target) || name.strip_prefix(target.as_str()).is_some_and(|rest| rest.starts_with('@'));
    let (what, option, found): (_, _, Vec<&String>) = if is_recursive || dataset.kind() == Kind::Snapshot {
        ("has dependent clones", "-R", dependents.iter().filter(|name| !is_inside(name)).collect())
    } else {
        ("has children", "-r", dependents.iter().filter(|name| is_inside(name)).collect())
    };
    if found.is_empty() {
        return Ok(());
    }
    let mut text = format!("cannot destroy '{target}': {} {what}\nuse '{option}' to destroy the following datasets:", dataset.kind());
    found.iter().for_each(|name| text += &format!("\n{name}"));
    Err(Failure::Told(text))
}

fn snapshots(host: &mut Host, base: &str, spec: &str, manner: Manner, output: &mut Output) -> Outcome {
    let mut doomed = Vec::new();
    let mut cloned = Vec::new();
    let mut reclaimed = 0;
    let clones = host.all_clones();
    let trees = if manner.is_recursive { host.tree.with_below(base) } else { vec![base.to_owned()] };
    for name in trees {
        let Some(base) = host.tree.get(&name).cloned() else { continue };
        let all: Vec<&Rc<Snapshot>> = base.snapshots.iter().collect();
        let ranges = ranges(&base.snapshots, spec);
        if !manner.with_clones && !manner.is_deferred {
            let named = ranges.iter().flat_map(|range| &all[range.clone()]).map(|it| host.tree.snapshot_of(&name, &base, it));
            cloned.extend(named.filter_map(|snapshot| check_dependents(host, &snapshot, &clones, manner.is_recursive).err()));
        }
        let places = picked(all.len(), &ranges);
        if manner.is_verbose {
            // Once one can't go, the others only would.
            let manner = Manner { is_dry: manner.is_dry || !cloned.is_empty(), ..manner };
            reclaimed += tell_picked(host, &name, &all, &places, manner, output);
        }
        doomed.extend(places.iter().map(|&place| host.tree.snapshot_of(&name, &base, all[place])));
    }
    if !cloned.is_empty() {
        return Err(Failure::Several(cloned));
    }
    if doomed.is_empty() {
        return Err(Failure::Told("could not find any snapshots to destroy; check snapshot names.".into()));
    }
    if manner.is_verbose {
        manner.tell_reclaimed(output, reclaimed);
    }
    if manner.is_dry { Ok(()) } else { destroy_all(host, &doomed, &clones, manner, output) }
}

/// The places that `a,b%c` means among the snapshots of a file system, as it names them. Names that nothing has are passed over, and so is a range
/// whose last stands before its first.
fn ranges(all: &Snapshots, spec: &str) -> Vec<Range<usize>> {
    let range = |part: &str| {
        let Some((first, last)) = part.split_once('%') else { return all.place(part).map(|only| only..only + 1) };
        let from = if first.is_empty() { 0 } else { all.place(first)? };
        let to = if last.is_empty() { all.len() } else { all.place(last)? + 1 };
        (from < to).then_some(from..to)
    };
    spec.split(',').filter_map(range).collect()
}

/// Those places of so many, each where it is named last.
fn picked(count: usize, ranges: &[Range<usize>]) -> Vec<usize> {
    let mut is_left = vec![true; count];
    let places = ranges.iter().rev().flat_map(|range| range.clone().rev());
    let mut picked: Vec<usize> = places.filter(|&place| mem::take(&mut is_left[place])).collect();
    picked.reverse();
    picked
}

/// Tells the snapshots that go, oldest first. What it gives are the bytes that would be freed: of each run of snapshots that stand together.
fn tell_picked(host: &mut Host, base: &str, all: &[&Rc<Snapshot>], picked: &[usize], manner: Manner, output: &mut Output) -> u64 {
    let mut places = picked.to_vec();
    places.sort_unstable();
    let mut reclaimed = 0;
    for run in places.chunk_by(|place, next| place + 1 == *next) {
        run.iter().for_each(|&place| manner.tell(output, &format!("{base}@{}", all[place].name)));
        if let [first, ..] = run {
            let last = run.last().unwrap_or(first);
            let line = format!("wouldfree {} {} {}", name::in_layer(base), name::spelt(&all[*first].name), name::spelt(&all[*last].name));
            reclaimed += host.layer.number(&line).unwrap_or(0);
        }
    }
    reclaimed
}

fn destroy_all(host: &mut Host, doomed: &[Dataset], clones: &Clones, manner: Manner, output: &mut Output) -> Outcome {
    if manner.with_clones {
        for snapshot in doomed {
            tell_doomed(host, snapshot, clones, Purpose::Destroy, manner, output)?;
            host.destroy_clones(snapshot, clones)?;
        }
    }
    host.destroy_snapshots(doomed, manner.is_deferred)
}

#[cfg(test)]
mod tests {
    use super::*;
    use crate::host::tests::{host, make, snapshot};

    fn names(host: &Host, spec: &str) -> Vec<String> {
        let all = &host.tree.get("tank/a").unwrap().snapshots;
        picked(all.len(), &ranges(all, spec)).iter().filter_map(|&place| Some(all.iter().nth(place)?.name.to_string())).collect()
    }

    #[test]
    fn specs_pick_names_and_ranges() {
        let mut host = host();
        make(&mut host, "tank/a");
        ["1", "2", "3", "4"].iter().for_each(|name| snapshot(&mut host, &format!("tank/a@{name}")));
        assert_eq!(names(&host, "2%3"), ["2", "3"]);
        assert_eq!(names(&host, "%2,4"), ["1", "2", "4"]);
        assert_eq!(names(&host, "4,2%3,%2"), ["4", "3", "1", "2"]);
        assert_eq!(names(&host, "%"), ["1", "2", "3", "4"]);
        assert_eq!(names(&host, "3%"), ["3", "4"]);
        assert_eq!(names(&host, "1,,9,3,1"), ["3", "1"]);
        for none in ["3%2", "0%2", "2%9", "9", "1%%2", "1%2%3", "1%@2"] {
            assert!(names(&host, none).is_empty(), "{none}");
        }
    }

    #[test]
    fn a_tree_goes_with_clones_of_its_snapshots() {
        let mut host = host();
        make(&mut host, "tank/a");
        make(&mut host, "tank/a/b");
        snapshot(&mut host, "tank/a/b@s");
        host.change(|host| host.make_clone("tank/a/b@s", "tank/c", 1).map_err(|_| Failure::Silent)).unwrap();
        let manner = Manner { is_recursive: true, with_clones: false, is_deferred: false, is_dry: false, is_verbose: false, is_scripted: false };
        let destroy = |host: &mut Host, manner| host.change(|host| file_system(host, "tank/a", "/", manner, &mut Output::default()));
        let text = destroy(&mut host, manner).unwrap_err().to_string();
        assert_eq!(text, "cannot destroy 'tank/a': filesystem has dependent clones\nuse '-R' to destroy the following datasets:\ntank/c\n");
        assert!(host.tree.has("tank/a/b@s"));
        destroy(&mut host, Manner { with_clones: true, ..manner }).unwrap();
        assert_eq!(host.tree.iter().map(|(name, _)| name.as_str()).collect::<Vec<_>>(), ["tank"]);
    }
}
