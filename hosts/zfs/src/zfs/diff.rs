//! `zfs diff`: which blocks differ. A file system here has objects with numbers and no files, so a path is `MOUNTPOINT/OBJECT/BLOCK`.

use super::walk;
use crate::call::Call;
use crate::dataset::Dataset;
use crate::failure::{Failure, Outcome};
use crate::host::Host;
use crate::layer::Refusal;
use crate::name;
use crate::property::Kinds;
use crate::usage::{Usage, ZfsCommand};
use crate::world::PoolThread;

const USAGE: Usage = Usage::Zfs(ZfsCommand::Diff);

/// The objects of a file system, and the blocks of one.
const OBJECTS: u32 = 256;
const BLOCKS: u32 = 4096;

/// How a line looks.
#[derive(Clone, Copy)]
struct Form {
    has_type: bool,
    has_time: bool,
    clock: i64,
}

/// The two datasets that are compared.
struct Pair {
    from: String,
    to: String,
}

impl Pair {
    /// Puts whole names together. With one name the second is the file system's own.
    fn read(call: &Call, from: &str, to: Option<&str>) -> Outcome<Pair> {
        let whole = [Some(from), to].into_iter().flatten().find(|word| !word.starts_with('@'));
        let base = name::base(whole.ok_or_else(|| Failure::Usage(USAGE, String::new()))?).to_owned();
        let pool = walk::open(call, &base, Kinds::FILE_SYSTEM)?;
        let Some(to) = to else {
            let bad = |reason| Failure::Told(format!("Badly formed snapshot name {from}: {reason}"));
            name::check(from, Kinds::SNAPSHOT, false).map_err(bad)?;
            return Ok(Pair { from: from.to_owned(), to: base });
        };
        if !from.contains('@') || from.ends_with('@') || to.ends_with('@') {
            return Err(Failure::Told("Unable to determine which snapshots to compare: invalid name".into()));
        }
        let whole = |word: &str| if word.starts_with('@') { format!("{base}{word}") } else { word.to_owned() };
        let pair = Pair { from: whole(from), to: whole(to) };
        pair.check(call, &pool)?;
        Ok(pair)
    }

    /// The first has to stand before the second, in its lineage.
    fn check(&self, call: &Call, pool: &PoolThread) -> Outcome {
        let alien = || Failure::Told("Not an earlier snapshot from the same fs: invalid name".into());
        if name::pool(&self.from) != name::pool(&self.to) {
            return Err(alien());
        }
        walk::open(call, name::base(&self.to), Kinds::FILE_SYSTEM).map_err(|failure| Failure::Several(vec![failure, alien()]))?;
        [&self.from, &self.to].into_iter().try_for_each(|name| walk::open(call, name, Kinds::FVS).map(drop))?;
        let (from, to) = (self.from.clone(), self.to.clone());
        let (is_of_lineage, is_before) = pool.run(move |host| {
            let (from, to) = (host.open(&from)?, host.open(&to)?);
            Ok((host.lineage(&to).contains(&name::base(&from.name).to_owned()), host.is_before(&from, &to)))
        })??;
        match (is_of_lineage, is_before) {
            (false, _) => Err(alien()),
            (true, false) => Err(Failure::Told("Unable to obtain diffs: Not an earlier snapshot from the same fs".into())),
            (true, true) => Ok(()),
        }
    }
}

impl Host {
    /// The file systems that a dataset comes from: its own, that of its origin, and so on.
    fn lineage(&mut self, dataset: &Dataset) -> Vec<String> {
        let mut names = vec![name::base(&dataset.name).to_owned()];
        while let Some(origin) = names.last().and_then(|name| self.origin(name)) {
            names.push(name::base(&origin).to_owned());
        }
        names
    }

    /// Whether a snapshot stands before a dataset in its lineage.
    fn is_before(&mut self, from: &Dataset, to: &Dataset) -> bool {
        let mut last = to.snapshot().map(|_| to.create_txg());
        let mut base = to.clone();
        while name::base(&base.name) != name::base(&from.name) {
            match self.origin(name::base(&base.name)).and_then(|origin| self.tree.find(&origin)) {
                // The origin itself stands before its clones.
                Some(origin) => (last, base) = (Some(origin.create_txg() + 1), origin),
                None => return false,
            }
        }
        last.is_none_or(|last| from.create_txg() < last)
    }
}

pub fn run(call: &mut Call, words: &[String]) -> Outcome {
    let options = call.options(words, "FHth", USAGE)?;
    let usage = |reason: &str| Err(Failure::Usage(USAGE, reason.to_owned()));
    let Pair { from, to } = match &options.operands[..] {
        [] => return usage("must provide at least one snapshot name"),
        [from] => Pair::read(call, from, None)?,
        [from, to] => Pair::read(call, from, Some(to))?,
        _ => return usage("too many arguments"),
    };
    let pool = walk::open(call, &from, Kinds::SNAPSHOT)?;
    let form = Form { has_type: options.has('F'), has_time: options.has('t'), clock: call.clock() };
    for object in 0..OBJECTS {
        let (from, to) = (from.clone(), to.clone());
        // One object a job, so that other clients get their turn.
        let lines = pool.run(move |host| object_lines(host, &from, &to, object, form))??;
        call.output.text(&lines);
        call.flush();
    }
    Ok(())
}

fn object_lines(host: &mut Host, from: &str, to: &str, object: u32, form: Form) -> Outcome<String> {
    let (old, new) = (host.open(from)?.path, host.open(to)?.path);
    let point = host.mount_point(name::base(to)).0;
    let unread = |refusal: Refusal| Failure::Told(format!("{to}: {refusal}: unable to generate diffs"));
    let mut text = String::new();
    for block in 0..BLOCKS {
        let before = host.layer.read(&old, object, block).map_err(unread)?;
        let after = host.layer.read(&new, object, block).map_err(unread)?;
        let change = match (before, after) {
            (before, after) if before == after => continue,
            (None, _) => '+',
            (_, None) => '-',
            _ => 'M',
        };
        if form.has_time {
            text += &format!("{}.000000000\t", form.clock);
        }
        text += &format!("{change}\t{}{point}/{object}/{block}\n", if form.has_type { "F\t" } else { "" });
    }
    Ok(text)
}

#[cfg(test)]
mod tests {
    use super::*;
    use crate::host::tests::{host, make, snapshot};

    #[test]
    fn changed_blocks_are_told() {
        let mut host = host();
        make(&mut host, "tank/a");
        let path = host.open("tank/a").unwrap().path;
        [0, 1].iter().for_each(|&block| host.layer.write(&path, 3, block, &[1]).unwrap());
        snapshot(&mut host, "tank/a@s");
        host.layer.write(&path, 3, 1, &[2]).unwrap();
        host.layer.write(&path, 3, 2, &[2]).unwrap();
        host.layer.order(&format!("punch {path} 3 0")).unwrap();
        let form = Form { has_type: false, has_time: false, clock: 0 };
        assert_eq!(object_lines(&mut host, "tank/a@s", "tank/a", 3, form).unwrap(), "-\t/tank/a/3/0\nM\t/tank/a/3/1\n+\t/tank/a/3/2\n");
        assert_eq!(object_lines(&mut host, "tank/a@s", "tank/a", 4, form).unwrap(), "");
    }

    #[test]
    fn a_snapshot_stands_before_what_came_of_it() {
        let mut host = host();
        make(&mut host, "tank/a");
        ["tank/a@1", "tank/a@2"].iter().for_each(|name| snapshot(&mut host, name));
        host.change(|host| host.make_clone("tank/a@1", "tank/c", 1).map_err(|_| Failure::Silent)).unwrap();
        let mut is_before = |from: &str, to: &str| {
            let (from, to) = (host.open(from).unwrap(), host.open(to).unwrap());
            host.is_before(&from, &to)
        };
        assert!(is_before("tank/a@1", "tank/a@2") && is_before("tank/a@2", "tank/a") && is_before("tank/a@1", "tank/c"));
        assert!(!is_before("tank/a@2", "tank/a@1") && !is_before("tank/a@1", "tank/a@1") && !is_before("tank/a@2", "tank/c"));
    }
}
