//! `zfs rename`: one request of the layer, of a file system with all below it, or of snapshots.

use super::walk;
use crate::call::Call;
use crate::dataset::Kind;
use crate::failure::{Action, Failure, Outcome, Reason, Trying};
use crate::host::Host;
use crate::name;
use crate::property::Kinds;
use crate::usage::{Usage, ZfsCommand};

const USAGE: Usage = Usage::Zfs(ZfsCommand::Rename);

pub fn run(call: &mut Call, words: &[String]) -> Outcome {
    let options = call.options(words, "pruf", USAGE)?;
    let usage = |reason: &str| Err(Failure::Usage(USAGE, reason.to_owned()));
    let (source, target) = match &options.operands[..] {
        [] => return usage("missing source dataset argument"),
        [_] => return usage("missing target dataset argument"),
        [source, target] => (source.clone(), target.clone()),
        _ => return usage("too many arguments"),
    };
    let (has_parents, is_recursive, is_unmounted) = (options.has('p'), options.has('r'), options.has('u'));
    if is_recursive && has_parents {
        return usage("-p and -r options are mutually exclusive");
    }
    if is_unmounted && has_parents {
        return usage("-u and -p options are mutually exclusive");
    }
    if is_recursive && !source.contains('@') {
        return usage("source dataset for recursive rename must be a snapshot");
    }
    let kinds = if is_unmounted { Kinds::FILE_SYSTEM } else if has_parents { Kinds::FV } else { Kinds::FVS };
    let pool = walk::open(call, &source, kinds)?;
    let (clock, folder) = (call.clock(), call.request.folder.clone());
    let is_valid = !source.contains('@') && name::check(&target, Kinds::FV, true).is_ok();
    if is_valid && call.world.pool_of(&target).is_none() && target.contains('/') {
        return Err(Failure::Cannot(Action::Create(target.clone()), Reason::NoPool(name::pool(&target).to_owned())));
    }
    let told = call.change(&pool, move |host| {
        if source.contains('@') {
            return rename_snapshots(host, &source, &target, is_recursive).map(|()| Vec::new());
        }
        if has_parents && name::check(&target, Kinds::FV, true).is_ok() && name::pool(&target) == host.name {
            host.make_parents(&target, clock).trying(|| Action::Create(target.clone()))?;
        }
        // With -u all stays mounted where it was.
        rename_file_system(host, &source, &target, Some(folder.as_str()).filter(|_| !is_unmounted))
    })?;
    call.log(&pool);
    if told.is_empty() { Ok(()) } else { Err(Failure::Several(told.into_iter().map(Failure::Told).collect())) }
}

fn rename_snapshots(host: &mut Host, source: &str, target: &str, is_recursive: bool) -> Outcome {
    let to = |reason: Reason| Failure::Cannot(Action::RenameTo(target.to_owned()), reason);
    let (base, old) = source.split_once('@').unwrap_or((source, ""));
    let new = match target.split_once('@') {
        None => target,
        Some(("", new)) => new,
        Some((other, new)) if other == base => new,
        Some(_) => return Err(to(Reason::Text("snapshots must be part of same dataset".into()))),
    };
    if old == new {
        return Ok(());
    }
    name::check(&format!("{base}@{new}"), Kinds::SNAPSHOT, true).map_err(to)?;
    let action = || Action::Rename(source.to_owned());
    let trees = if is_recursive { host.tree.with_below(base) } else { vec![base.to_owned()] };
    let mut renamed = trees.iter().filter(|name| host.tree.has(&format!("{name}@{old}")));
    if let Some(reason) = renamed.find_map(|name| why_not(host, &format!("{name}@{new}"), is_recursive)) {
        return Err(Failure::Cannot(action(), reason));
    }
    host.rename_snapshot(source, new, is_recursive).trying(action)
}

/// Why a snapshot can't get a name.
fn why_not(host: &Host, name: &str, is_recursive: bool) -> Option<Reason> {
    match host.tree.has(name) {
        true if is_recursive => Some(Reason::Text("a child dataset already has a snapshot with the new name".into())),
        true => Some(Reason::Exists),
        false if name::is_too_long(name) => Some(Reason::TooManyBelow),
        false => None,
    }
}

/// Where the client stands counts if what is mounted is to move. What is told of file systems that can't be mounted in their new places.
fn rename_file_system(host: &mut Host, source: &str, target: &str, folder: Option<&str>) -> Outcome<Vec<String>> {
    if source == target {
        return Ok(Vec::new());
    }
    check_target(host, source, target)?;
    if let Some(folder) = folder {
        host.check_unused(source, folder)?;
    }
    let action = || Action::Rename(source.to_owned());
    let longest = host.tree.with_below(source).iter().flat_map(|below| longest_names(host, below)).max().unwrap_or(0);
    let levels = |name: &str| name.matches('/').count();
    let deepest = host.tree.with_below(source).iter().map(|below| levels(below)).max().unwrap_or(0);
    // What is deeper than the limit may stay so, and may not grow.
    let is_too_deep = levels(target) > levels(source) && deepest + levels(target) - levels(source) >= name::rename_depth_limit();
    let reason = match () {
        () if host.tree.has(target) => Some(Reason::Exists),
        () if longest + target.len() - source.len() > name::NAME_LIMIT => Some(Reason::TooManyBelow),
        () if is_too_deep => Some(Reason::TooManyBelow),
        () => None,
    };
    if let Some(reason) = reason {
        return Err(Failure::Cannot(action(), reason));
    }
    let mut mounted = host.mounted();
    mounted.retain(|(name, _)| name == source || name::is_below(name, source));
    host.layer.rename(&name::in_layer(source), &name::in_layer(target)).trying(action)?;
    host.tree.rename(source, target);
    let renamed = mounted.into_iter().map(|(old, place)| (format!("{target}{}", &old[source.len()..]), place));
    Ok(mounted_again(host, renamed, folder.is_some()))
}

/// What was mounted is mounted in its new place, or left in the old one. What is told of those that can't be mounted.
fn mounted_again(host: &mut Host, renamed: impl Iterator<Item = (String, String)>, moves: bool) -> Vec<String> {
    let mut told = Vec::new();
    for (name, place) in renamed {
        match moves {
            true => told.extend(host.mount(&name).err()),
            false => host.leave_mounted(&name, place),
        }
    }
    told
}

/// How long the names of a file system and of its snapshots are.
fn longest_names(host: &Host, name: &str) -> Vec<usize> {
    let Some(base) = host.tree.get(name) else { return Vec::new() };
    base.snapshots.iter().map(|snapshot| name.len() + 1 + snapshot.name.len()).chain([name.len()]).collect()
}

fn check_target(host: &Host, source: &str, target: &str) -> Outcome {
    let to = || Action::RenameTo(target.to_owned());
    let create = |reason: Reason| Failure::Cannot(Action::Create(target.to_owned()), reason);
    let kind = host.tree.get(source).map_or(Kind::FileSystem, |it| it.kind);
    name::check(target, Kinds::of(kind), true).trying(to)?;
    let above = name::parent(target).ok_or_else(|| create(Reason::Text("missing dataset name".into())))?;
    if name::pool(target) != host.name {
        return Err(Failure::Cannot(to(), Reason::Text("datasets must be within same pool".into())));
    }
    let parent = host.tree.get(above).ok_or_else(|| create(Reason::NoParent))?;
    if parent.kind == Kind::Volume {
        return Err(create(Reason::ParentIsVolume));
    }
    if !source.contains('/') {
        return Err(Failure::Cannot(Action::Rename(source.to_owned()), Reason::Text("operation not supported on this dataset".into())));
    }
    if name::is_below(target, source) {
        return Err(Failure::Cannot(to(), Reason::Text("New dataset name cannot be a descendant of current dataset name".into())));
    }
    Ok(())
}

#[cfg(test)]
mod tests {
    use super::*;
    use crate::host::tests::{host, make, snapshot};
    use crate::property::Native;

    fn rename(host: &mut Host, source: &str, target: &str) -> Result<(), String> {
        host.change(|host| rename_file_system(host, source, target, Some("/"))).map(drop).map_err(|failure| failure.to_string())
    }

    #[test]
    fn all_below_follows_a_rename() {
        let mut host = host();
        ["tank/a", "tank/a/b", "tank/ab"].iter().for_each(|name| make(&mut host, name));
        snapshot(&mut host, "tank/a/b@s");
        rename(&mut host, "tank/a", "tank/c").unwrap();
        assert!(host.tree.has("tank/c/b@s") && host.tree.has("tank/ab") && !host.tree.has("tank/a"));
        make(&mut host, "tank/a");
        snapshot(&mut host, "tank/a@s");
        assert!(host.tree.has("tank/a@s") && host.tree.has("tank/c/b@s"));
        assert!(rename(&mut host, "tank/a", "tank/c").unwrap_err().ends_with("dataset already exists\n"));
        assert!(rename(&mut host, "tank/a", "tank/a/x").is_err());
        assert!(rename(&mut host, "tank/a", "other/x").unwrap_err().contains("within same pool"));
    }

    fn write(host: &mut Host, name: &str, block: u32, byte: u8) {
        host.layer.write(&name::in_layer(name), 0, block, &[byte]).unwrap();
    }

    fn read(host: &mut Host, name: &str, block: u32) -> Option<u8> {
        let path = host.open(name).unwrap().path;
        host.layer.read(&path, 0, block).unwrap().map(|bytes| bytes[0])
    }

    /// With snapshots, a tag, a bookmark and a quota, and a clone beside it.
    fn prepared() -> Host {
        let mut host = host();
        ["tank/a", "tank/a/b", "tank/x"].iter().for_each(|name| make(&mut host, name));
        for (number, name) in ["tank/a@1", "tank/a@2", "tank/a/b@1"].iter().enumerate() {
            write(&mut host, name::base(name), number as u32, number as u8 + 1);
            snapshot(&mut host, name);
        }
        write(&mut host, "tank/a", 7, 7);
        host.change(|host| {
            host.hold("tank/a@1", "kept", 5).unwrap();
            host.set_limit("tank/a", Native::Quota, "1000000").unwrap();
            host.make_clone("tank/a@2", "tank/clone", 1).unwrap();
            let from = host.open("tank/a@1").unwrap();
            host.make_bookmark(&from, "tank/a", "m").map_err(|_| Failure::Silent)
        })
        .unwrap();
        host
    }

    #[test]
    fn all_of_a_file_system_goes_to_another_parent() {
        let mut host = prepared();
        let guids = ["tank/a@1", "tank/a@2"].map(|name| host.open(name).unwrap().guid());
        rename(&mut host, "tank/a", "tank/x/c").unwrap();
        assert_eq!(["tank/x/c@1", "tank/x/c@2"].map(|name| host.open(name).unwrap().guid()), guids);
        assert_eq!([0, 1, 7].map(|block| read(&mut host, "tank/x/c", block)), [Some(1), Some(2), Some(7)]);
        assert_eq!([0, 1, 7].map(|block| read(&mut host, "tank/x/c@1", block)), [Some(1), None, None]);
        assert_eq!(read(&mut host, "tank/x/c/b@1", 2), Some(3));
        assert_eq!(host.layer.number("get quota p/x/c"), Ok(1_000_448));
        assert_eq!(host.origin("tank/clone").as_deref(), Some("tank/x/c@2"));
        assert_eq!(host.layer.ask("list").unwrap(), "p p/clone p/x p/x/c p/x/c@1 p/x/c@2 p/x/c#0 p/x/c/b p/x/c/b@1");
        // The tree is what the layer lists.
        let before = format!("{:?}", host.tree);
        host.follow_layer();
        assert_eq!(format!("{:?}", host.tree), before);
        host.change(|host| host.release("tank/x/c@1", "kept").map_err(|_| Failure::Silent)).unwrap();
        rename(&mut host, "tank/clone", "tank/x/c/b/clone").unwrap();
        assert_eq!(host.origin("tank/x/c/b/clone").as_deref(), Some("tank/x/c@2"));
        assert_eq!([0, 7].map(|block| read(&mut host, "tank/x/c/b/clone", block)), [Some(1), None]);
    }

    #[test]
    fn a_quota_above_the_new_place_is_kept() {
        let mut host = prepared();
        let used = host.layer.number("get used p/x").unwrap();
        host.change(|host| host.set_limit("tank/x", Native::Quota, &(used + 512).to_string()).map_err(|_| Failure::Silent)).unwrap();
        let before = (format!("{:?}", host.tree), host.layer.ask("list").unwrap());
        assert_eq!(rename(&mut host, "tank/a", "tank/x/a").unwrap_err(), "cannot rename 'tank/a': out of space\n");
        assert_eq!((format!("{:?}", host.tree), host.layer.ask("list").unwrap()), before);
        rename(&mut host, "tank/a", "tank/b").unwrap();
    }

    #[test]
    fn a_renamed_snapshot_has_its_name_in_the_layer() {
        let mut host = prepared();
        let kept = |host: &mut Host, name: &str| (host.open(name).unwrap().guid(), [0, 1, 7].map(|block| read(host, name, block)));
        let before = ["tank/a@1", "tank/a/b@1"].map(|name| kept(&mut host, name));
        host.change(|host| rename_snapshots(host, "tank/a@1", "@a b", true)).unwrap();
        assert_eq!(host.layer.ask("list").unwrap(), "p p/a p/a@a:._b p/a@2 p/a#0 p/a/b p/a/b@a:._b p/clone p/x");
        assert_eq!(["tank/a@a b", "tank/a/b@a b"].map(|name| kept(&mut host, name)), before);
        // The tree is what the layer lists.
        let tree = format!("{:?}", host.tree);
        host.follow_layer();
        assert_eq!(format!("{:?}", host.tree), tree);
        host.change(|host| rename_snapshots(host, "tank/a@2", "tank/a@1", false)).unwrap();
        assert_eq!((host.origin("tank/clone").as_deref(), host.layer.ask("holds p/a@a:._b").as_deref()), (Some("tank/a@1"), Ok("0")));
        host.change(|host| host.release("tank/a@a b", "kept").map_err(|_| Failure::Silent)).unwrap();
        assert_eq!(host.layer.ask("holds p/a@a:._b").as_deref(), Ok("-"));
    }

    #[test]
    fn snapshots_of_a_tree_are_renamed_all_or_none() {
        let mut host = host();
        ["tank/a", "tank/a/b"].iter().for_each(|name| make(&mut host, name));
        ["tank/a@1", "tank/a/b@1", "tank/a/b@2"].iter().for_each(|name| snapshot(&mut host, name));
        let rename = |host: &mut Host, new: &str| host.change(|host| rename_snapshots(host, "tank/a@1", new, true));
        assert!(rename(&mut host, "@2").unwrap_err().to_string().contains("a child dataset already has"));
        assert!(host.tree.has("tank/a@1") && !host.tree.has("tank/a@2"));
        rename(&mut host, "3").unwrap();
        assert!(host.tree.has("tank/a@3") && host.tree.has("tank/a/b@3"));
    }
}
