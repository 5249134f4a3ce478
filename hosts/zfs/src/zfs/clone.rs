//! `zfs clone` and `zfs promote`.

use super::create::not_mounted;
use super::walk;
use crate::call::Call;
use crate::dataset::Kind;
use crate::failure::{Action, Failure, Outcome, Reason, Trying};
use crate::host::Host;
use crate::layer::{Layer, Refusal};
use crate::name;
use crate::property::Kinds;
use crate::setting::{check, settings, Setting};
use crate::usage::{Usage, ZfsCommand};

const CLONE: Usage = Usage::Zfs(ZfsCommand::Clone);
const PROMOTE: Usage = Usage::Zfs(ZfsCommand::Promote);

/// What a clone has of its origin beside blocks.
const COPIED: [&str; 6] = ["volsize", "volblocksize", "version", "casesensitivity", "normalization", "utf8only"];

pub fn clone(call: &mut Call, words: &[String]) -> Outcome {
    let options = call.options(words, "o:p", CLONE)?;
    let settings = settings(options.arguments('o'))?;
    let usage = |reason: &str| Err(Failure::Usage(CLONE, reason.to_owned()));
    let (source, target) = match &options.operands[..] {
        [] => return usage("missing source dataset argument"),
        [_] => return usage("missing target dataset argument"),
        [source, target] => (source.clone(), target.clone()),
        _ => return usage("too many arguments"),
    };
    let pool = walk::open(call, &source, Kinds::SNAPSHOT)?;
    let action = || Action::Create(target.clone());
    name::check(&target, Kinds::FILE_SYSTEM, true).trying(action)?;
    if name::pool(&target) != pool.name {
        let there = call.world.pool_of(&target).is_some();
        let reason = if there { Reason::OtherPool } else { Reason::NoPool(name::pool(&target).to_owned()) };
        return Err(Failure::Cannot(action(), reason));
    }
    let (has_parents, clock) = (options.has('p'), call.clock());
    let mounted = call.change(&pool, move |host| {
        let action = || Action::Create(target.clone());
        if has_parents && host.tree.has(&target) {
            return Ok(Ok(()));
        }
        if has_parents {
            host.make_parents(&target, clock).trying(action)?;
        }
        make(host, &source, &target, clock, &settings).trying(action)
    })?;
    call.log(&pool);
    mounted.map_err(|text| not_mounted(&text))
}

/// Makes a clone, and says why it isn't mounted where that can't be.
fn make(host: &mut Host, source: &str, target: &str, clock: i64, settings: &[Setting]) -> Result<Result<(), String>, Reason> {
    let kind = host.tree.get(name::base(source)).map_or(Kind::FileSystem, |it| it.kind);
    let checked = settings.iter().map(|setting| check(setting, kind, false)).collect::<Result<Vec<_>, _>>()?;
    host.make_clone(source, target, clock)?;
    checked.iter().try_for_each(|setting| host.set(target, setting))?;
    Ok(host.mount_new(target))
}

impl Host {
    /// Makes a clone of a snapshot.
    pub fn make_clone(&mut self, source: &str, target: &str, clock: i64) -> Result<(), Reason> {
        let path = name::in_layer(target);
        self.clone_by(source, target, clock, |layer, origin| Ok(layer.order(&format!("clone {origin} {path}"))?))
    }

    /// Makes a clone by what the layer is asked to do of the origin's name there.
    pub fn clone_by(
        &mut self,
        source: &str,
        target: &str,
        clock: i64,
        make: impl FnOnce(&mut Layer, &str) -> Result<(), Reason>,
    ) -> Result<(), Reason> {
        let snapshot = self.tree.find(source).ok_or(Reason::NoDataset)?;
        let above = name::parent(target).ok_or_else(|| Reason::Text("missing dataset name".into()))?;
        self.check_place(target, above)?;
        make(&mut self.layer, &snapshot.path)?;
        let mut clone = self.new_file_system(snapshot.base.kind, clock);
        for property in COPIED {
            clone.local.extend(snapshot.base.local.get(property).map(|value| (property.to_owned(), value.clone())));
        }
        if let Some(size) = snapshot.snapshot().and_then(|it| it.volume_size.clone()) {
            clone.local.insert("volsize".into(), size);
        }
        self.tree.insert(target.to_owned(), clone);
        Ok(())
    }

    /// Gives a clone its origin and all older snapshots. Of several names that are in the way the newest is told, as OpenZFS's kernel goes from the
    /// origin backward; a name that would be too long goes before all.
    pub fn promote(&mut self, name: &str) -> Result<(), Reason> {
        let whole = self.tree.whole(name).ok_or(Reason::NoDataset)?;
        let origin = self.origin(name).ok_or(Reason::NotClone)?;
        let base = name::base(&origin);
        let given = self.tree.snapshots(base);
        let count = given.iter().position(|it| it.name == origin).map_or(0, |place| place + 1);
        let mut components = given[..count].iter().filter_map(|it| name::snapshot(&it.name));
        if components.clone().any(|it| name::is_too_long(&format!("{name}@{it}"))) {
            return Err(Reason::TooManyBelow);
        }
        self.layer.order(&format!("promote {}", whole.path)).map_err(|refusal| match components.rfind(|it| whole.base.snapshots.get(it).is_some()) {
            Some(it) if refusal == Refusal::NameClash => Reason::Text(format!("conflicting snapshot '{it}' from parent '{origin}'")),
            _ => refusal.into(),
        })?;
        self.tree.promote(name, base, count);
        Ok(())
    }
}

pub fn promote(call: &mut Call, words: &[String]) -> Outcome {
    let usage = |reason: String| Err(Failure::Usage(PROMOTE, reason));
    let name = match words {
        [] => return usage("missing clone filesystem argument".into()),
        [one, ..] if one.starts_with('-') => return usage(format!("invalid option '{}'", one.chars().nth(1).unwrap_or('\0'))),
        [name] => name.clone(),
        _ => return usage("too many arguments".into()),
    };
    let pool = walk::open(call, &name, Kinds::FV)?;
    call.change(&pool, move |host| host.promote(&name).trying(|| Action::Promote(name.clone())))?;
    call.log(&pool);
    Ok(())
}

#[cfg(test)]
mod tests {
    use super::*;
    use crate::host::tests::{host, make as make_fs, snapshot};

    #[test]
    fn a_promote_moves_snapshots_with_what_is_kept_of_them() {
        let mut host = host();
        make_fs(&mut host, "tank/a");
        snapshot(&mut host, "tank/a@1");
        host.tree.edit_snapshot("tank/a@1").unwrap().local.insert("x:y".into(), "z".into());
        host.change(|host| host.make_clone("tank/a@1", "tank/c", 1).map_err(|_| Failure::Silent)).unwrap();
        snapshot(&mut host, "tank/a@2");
        host.change(|host| host.promote("tank/c").map_err(|_| Failure::Silent)).unwrap();
        let moved = host.open("tank/c@1").unwrap();
        assert_eq!(moved.snapshot().unwrap().local["x:y"], "z");
        assert_eq!(host.tree.snapshots("tank/a").len(), 1);
        assert_eq!(host.origin("tank/a").as_deref(), Some("tank/c@1"));
    }

    #[test]
    fn a_name_that_both_have_stands_in_the_way_of_a_promote() {
        let mut host = host();
        make_fs(&mut host, "tank/a");
        for name in ["tank/a@1", "tank/a@2", "tank/a@3"] {
            snapshot(&mut host, name);
        }
        host.change(|host| host.make_clone("tank/a@3", "tank/c", 1).map_err(|_| Failure::Silent)).unwrap();
        snapshot(&mut host, "tank/c@1");
        assert_eq!(host.promote("tank/c").unwrap_err().to_string(), "conflicting snapshot '1' from parent 'tank/a@3'");
        snapshot(&mut host, "tank/c@2");
        assert_eq!(host.promote("tank/c").unwrap_err().to_string(), "conflicting snapshot '2' from parent 'tank/a@3'");
        assert_eq!(host.promote("tank/a"), Err(Reason::NotClone));
    }
}
