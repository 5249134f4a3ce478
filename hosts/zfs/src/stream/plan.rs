//! What a send consists of: one step after another, each a stream of the layer.

use super::format::{Begin, Listed, Step};
use super::token::Token;
use crate::dataset::{Dataset, FileSystem, Kind, Part, Snapshot, Values};
use crate::failure::{Action, Failure, Outcome, Reason};
use crate::host::Host;
use crate::layer::Refusal;
use crate::name;
use crate::property::Native;
use std::collections::HashSet;

/// What is asked of a send.
#[derive(Clone, Debug, Default)]
pub struct Wanted {
    pub name: String,
    /// A snapshot or bookmark to start from, by its whole name.
    pub from: Option<String>,
    /// All snapshots between (`-I`).
    pub with_between: bool,
    pub is_replication: bool,
    pub skips_missing: bool,
    pub with_properties: bool,
    /// Received properties in the place of local ones (`-b`).
    pub is_backup: bool,
    pub with_holds: bool,
}

/// A step to be made.
#[derive(Clone, Debug, PartialEq, Eq)]
pub struct PlannedStep {
    pub to: String,
    pub from: Option<String>,
    pub head: Step,
}

#[derive(Clone, Debug)]
pub struct Plan {
    pub begin: Begin,
    /// Whether `-R` or `-I` asks for several steps, though there may be one.
    pub is_package: bool,
    pub steps: Vec<PlannedStep>,
    /// What standard error is told.
    pub warnings: Vec<String>,
}

impl PlannedStep {
    /// The bytes of the layer's stream that are still to be sent.
    pub fn body(&self, host: &mut Host) -> Outcome<Vec<u8>> {
        let at = self.head.resumes_at.unwrap_or(0);
        let (to, from) = self.paths(host)?;
        host.layer.stream(&to, from.as_deref(), at).map_err(|refusal| self.not_sent(refusal))
    }

    /// How many they are.
    pub fn size(&self, host: &mut Host) -> Outcome<u64> {
        let (to, from) = self.paths(host)?;
        let size = host.layer.stream_size(&to, from.as_deref()).map_err(|refusal| self.not_sent(refusal))?;
        Ok(size.saturating_sub(self.head.resumes_at.unwrap_or(0)))
    }

    /// The names of both in the layer. Either may have been renamed since this was planned.
    fn paths(&self, host: &Host) -> Outcome<(String, Option<String>)> {
        let path = |name: &str, guid| host.same(name, guid).map(|it| it.path).ok_or_else(|| self.not_sent(Refusal::NoDataset));
        let from = self.from.as_ref().map(|from| path(from, self.head.from_guid)).transpose()?;
        Ok((path(&self.to, self.head.to_guid)?, from))
    }

    fn not_sent(&self, refusal: Refusal) -> Failure {
        let reason = match refusal {
            Refusal::NoDataset => Reason::Text("the snapshot was destroyed meanwhile".into()),
            other => other.into(),
        };
        Failure::Cannot(Action::WarnSend(self.to.clone()), reason)
    }
}

/// The properties that are sent of a file system: its own, local before received. With `is_backup` what was received alone.
fn sent_properties(base: &FileSystem, is_backup: bool) -> Values {
    // A volume's size goes with each step.
    let is_sent = |name: &str| match Native::named(name) {
        Some(native) => !native.is_read_only() && native.kinds().has(base.kind) && native != Native::VolSize,
        None => true,
    };
    let mut values = base.received.clone();
    if !is_backup {
        values.retain(|name, _| !base.hidden.contains(name));
        values.extend(base.local.clone());
    }
    values.retain(|name, _| is_sent(name));
    values
}

fn of_snapshot(snapshot: &Snapshot, is_backup: bool) -> Values {
    let mut values = snapshot.received.clone();
    if !is_backup {
        values.retain(|name, _| !snapshot.hidden.contains(name));
        values.extend(snapshot.local.clone());
    }
    values
}

/// The sizes of a volume, as they were when the snapshot was made.
fn volume_sizes(to: &Dataset) -> Values {
    if to.base.kind != Kind::Volume {
        return Values::new();
    }
    let size = to.snapshot().and_then(|it| it.volume_size.clone()).map(|size| ("volsize".to_owned(), size));
    let block = to.base.local.get("volblocksize").map(|block| ("volblocksize".to_owned(), block.clone()));
    size.into_iter().chain(block).collect()
}

impl Host {
    /// Plans a send of one snapshot, or of several.
    pub fn plan(&mut self, wanted: &Wanted) -> Outcome<Plan> {
        if wanted.is_replication || wanted.with_between { self.plan_package(wanted) } else { self.plan_one(wanted) }
    }

    fn plan_one(&mut self, wanted: &Wanted) -> Outcome<Plan> {
        let to = self.open(&wanted.name)?;
        if to.snapshot().is_none() {
            let name = &wanted.name;
            if wanted.with_properties || wanted.is_backup || wanted.with_holds {
                let text = format!("cannot send {name}@: snapshot {name}@ does not exist\nwarning: cannot send '{name}': backup failed");
                return Err(Failure::Told(text));
            }
            let reason = Reason::Text("target is busy; if a filesystem, it must not be mounted".into());
            return Err(Failure::Cannot(Action::WarnSend(wanted.name.clone()), reason));
        }
        let from = match &wanted.from {
            Some(from) => Some(self.open_source(&to, from)?),
            None => None,
        };
        let step = self.step(wanted, &to, from.as_ref());
        let is_compound = wanted.with_properties || wanted.is_backup || wanted.with_holds;
        let begin = Begin { to_name: wanted.name.clone(), is_compound, ..Begin::default() };
        Ok(Plan { begin, is_package: false, steps: vec![step], warnings: Vec::new() })
    }

    /// A source of one step: an older snapshot of the lineage, or a bookmark.
    fn open_source(&mut self, to: &Dataset, from: &str) -> Outcome<Dataset> {
        let warn = |reason| Failure::Cannot(Action::WarnSend(to.name.clone()), reason);
        let found = match self.tree.find(from) {
            Some(found) => found,
            None if from.contains('#') => return Err(warn(Reason::Text(format!("incremental source ({from}) does not exist")))),
            None if name::pool(from) != self.name => return Err(warn(Reason::NotAncestor)),
            None => return Err(Failure::no_dataset(from)),
        };
        if matches!(found.part, Part::Whole) {
            return Err(warn(Reason::NotAncestor));
        }
        match self.layer.stream_size(&to.path, Some(&found.path)) {
            Ok(_) => Ok(found),
            Err(_) => Err(warn(Reason::NotAncestor)),
        }
    }

    fn step(&self, wanted: &Wanted, to: &Dataset, from: Option<&Dataset>) -> PlannedStep {
        let sends_properties = wanted.with_properties || wanted.is_replication || wanted.is_backup;
        let snapshot = to.snapshot();
        let holds = snapshot.filter(|_| wanted.with_holds).map(|it| it.holds.keys().cloned().collect());
        let head = Step {
            to_name: to.name.clone(),
            to_guid: to.guid(),
            from_guid: from.map_or(0, Dataset::guid),
            is_clone: from.is_some_and(|from| name::base(&from.name) != name::base(&to.name)),
            creation: snapshot.map_or(0, |it| it.creation),
            kind: to.base.kind,
            volume: volume_sizes(to),
            properties: sends_properties.then(|| sent_properties(&to.base, wanted.is_backup)),
            snapshot_properties: snapshot.filter(|_| sends_properties).map(|it| of_snapshot(it, wanted.is_backup)).unwrap_or_default(),
            holds: holds.unwrap_or_default(),
            resumes_at: None,
        };
        PlannedStep { to: to.name.clone(), from: from.map(|from| from.name.clone()), head }
    }

    /// Plans `-R` or `-I`.
    fn plan_package(&mut self, wanted: &Wanted) -> Outcome<Plan> {
        let (base, component) = wanted.name.split_once('@').unwrap_or((&wanted.name, ""));
        self.open(&wanted.name)?;
        let origin = self.origin(base);
        let is_from_origin = wanted.from.is_some() && wanted.from == origin;
        let from = wanted.from.as_deref().filter(|_| !is_from_origin).and_then(name::snapshot);
        if let Some(from) = from {
            self.open(&format!("{base}@{from}"))?;
        }
        let names = if wanted.is_replication { self.origins_first(base) } else { vec![base.to_owned()] };
        let begin = self.begin(wanted, &names, from.is_some());
        let mut plan = Plan { begin, is_package: true, steps: Vec::new(), warnings: Vec::new() };
        let set: HashSet<&str> = names.iter().map(String::as_str).collect();
        for name in &names {
            let last = format!("{name}@{component}");
            if !self.tree.has(&last) {
                self.miss(wanted, &last, &mut plan)?;
                continue;
            }
            let chain = self.chain(wanted, name, from, component);
            let origin = self.origin(name).filter(|origin| is_from_origin || wanted.is_replication && set.contains(name::base(origin)));
            self.add_steps(wanted, name, &chain, from, origin, &mut plan)?;
        }
        Ok(plan)
    }

    /// A file system of a replication without the snapshot fails it, or is passed over.
    fn miss(&self, wanted: &Wanted, last: &str, plan: &mut Plan) -> Outcome {
        if wanted.skips_missing {
            plan.warnings.push(format!("WARNING: skipping dataset {} and its children: snapshot {last} does not exist", name::base(last)));
            return Ok(());
        }
        let name = &wanted.name;
        let head = format!("cannot send {name} recursively: snapshot {last} does not exist");
        Err(Failure::Told(format!("{head}\nwarning: cannot send '{name}': backup failed")))
    }

    fn begin(&self, wanted: &Wanted, names: &[String], is_incremental: bool) -> Begin {
        let listed = |name: &String| {
            let snapshots = self.tree.get(name).map(|it| it.snapshots.clone()).unwrap_or_default();
            let properties = |it: &Snapshot| of_snapshot(it, wanted.is_backup);
            let listed = snapshots.iter().map(|it| Listed { name: it.name.to_string(), guid: it.guid, properties: properties(it) });
            (name.clone(), listed.collect())
        };
        Begin {
            to_name: wanted.name.clone(),
            is_replication: wanted.is_replication,
            is_incremental,
            is_compound: true,
            file_systems: if wanted.is_replication { names.iter().map(listed).collect() } else { Vec::new() },
        }
    }

    /// A tree's file systems, each after the one that has its origin.
    fn origins_first(&mut self, base: &str) -> Vec<String> {
        let mut left = self.tree.with_below(base);
        let mut ordered: Vec<String> = Vec::new();
        while !left.is_empty() {
            let is_ready = |host: &mut Host, name: &String, left: &[String]| {
                host.origin(name).is_none_or(|origin| !left.iter().any(|it| it == name::base(&origin)))
            };
            let place = (0..left.len()).find(|&place| is_ready(self, &left[place].clone(), &left)).unwrap_or(0);
            ordered.push(left.remove(place));
        }
        ordered
    }

    /// The snapshots of a file system that are sent, oldest first.
    fn chain(&mut self, wanted: &Wanted, name: &str, from: Option<&str>, last: &str) -> Vec<Dataset> {
        let all = self.tree.snapshots(name);
        let place = |component: &str| all.iter().position(|it| name::snapshot(&it.name) == Some(component));
        let first = from.and_then(place).map_or(0, |place| place + 1);
        let end = place(last).map_or(0, |place| place + 1);
        let chain = all.get(first..end).unwrap_or_default().to_vec();
        let sends_all = wanted.with_between || wanted.is_replication && wanted.from.is_none();
        if sends_all {
            return chain;
        }
        // Beside the last, those that clones are made of.
        let count = chain.len();
        let is_kept = |host: &mut Host, place: usize, it: &Dataset| place + 1 == count || host.clones(it).is_ok_and(|clones| !clones.is_empty());
        chain.into_iter().enumerate().filter(|(place, it)| is_kept(self, *place, it)).map(|(_, it)| it).collect()
    }

    fn add_steps(&mut self, wanted: &Wanted, name: &str, chain: &[Dataset], from: Option<&str>, origin: Option<String>, plan: &mut Plan) -> Outcome {
        let source = from.and_then(|from| self.tree.find(&format!("{name}@{from}")));
        if chain.is_empty() {
            // The source is the last, or younger.
            let is_same = from.is_some() && name::snapshot(&wanted.name) == from;
            return if is_same && wanted.is_replication { Ok(()) } else { Err(Failure::Told(self.not_older(wanted, name, from))) };
        }
        let mut before = source.or_else(|| origin.and_then(|origin| self.tree.find(&origin)));
        for to in chain {
            plan.steps.push(self.step(wanted, to, before.as_ref()));
            before = Some(to.clone());
        }
        Ok(())
    }

    fn not_older(&self, wanted: &Wanted, name: &str, from: Option<&str>) -> String {
        let last = name::snapshot(&wanted.name).unwrap_or_default();
        let from = from.unwrap_or_default();
        format!("WARNING: could not send {name}@{last}:\nincremental source ({name}@{from}) is not earlier than it")
    }

    /// Plans what a token stands for: the rest of a step whose receive was cut.
    pub fn plan_token(&mut self, token: &Token) -> Outcome<Plan> {
        let cannot = |text: String| Failure::Cannot(Action::ResumeSend, Reason::Text(text));
        let Token { to_name, to_guid, from_guid, at } = token;
        let to = match self.same(to_name, *to_guid) {
            Some(to) => to,
            None if self.tree.has(to_name) => return Err(cannot(format!("'{to_name}' is no longer the same snapshot used in the initial send"))),
            None => return Err(cannot(format!("'{to_name}' used in the initial send no longer exists"))),
        };
        let from = match from_guid {
            0 => None,
            guid => {
                let found = self.by_guid(name::base(&to.name), *guid).or_else(|| self.bookmark_by_guid(name::base(&to.name), *guid));
                Some(found.ok_or_else(|| cannot(format!("incremental source {guid:#x} no longer exists")))?)
            }
        };
        let mut step = self.step(&Wanted::default(), &to, from.as_ref());
        step.head.resumes_at = Some(*at);
        let begin = Begin { to_name: to_name.clone(), ..Begin::default() };
        Ok(Plan { begin, is_package: false, steps: vec![step], warnings: Vec::new() })
    }

    /// What has this name and guid, or else the snapshot of this guid.
    fn same(&self, name: &str, guid: u64) -> Option<Dataset> {
        self.tree.find(name).filter(|it| it.guid() == guid).or_else(|| self.by_guid(name::base(name), guid))
    }

    /// The snapshot of a guid: of this file system, or else of any.
    pub fn by_guid(&self, base: &str, guid: u64) -> Option<Dataset> {
        let of = |name: &str| {
            let base = self.tree.get(name)?;
            base.snapshots.by_guid(guid).map(|it| self.tree.snapshot_of(name, base, it))
        };
        of(base).or_else(|| self.tree.iter().find_map(|(name, _)| of(name)))
    }

    fn bookmark_by_guid(&self, base: &str, guid: u64) -> Option<Dataset> {
        self.tree.bookmarks(base).into_iter().find(|it| it.guid() == guid)
    }
}

#[cfg(test)]
mod tests {
    use super::*;
    use crate::host::tests::{host, make, snapshot};

    fn steps(plan: &Plan) -> Vec<(Option<&str>, &str)> {
        plan.steps.iter().map(|step| (step.from.as_deref(), step.to.as_str())).collect()
    }

    fn prepared() -> Host {
        let mut host = host();
        make(&mut host, "tank/a");
        make(&mut host, "tank/a/b");
        ["tank/a@1", "tank/a@2", "tank/a/b@2", "tank/a@3", "tank/a/b@3"].iter().for_each(|name| snapshot(&mut host, name));
        host
    }

    #[test]
    fn a_package_is_a_chain_of_steps() {
        let mut host = prepared();
        let wanted = |from: Option<&str>| Wanted { name: "tank/a@3".into(), from: from.map(str::to_owned), ..Wanted::default() };
        let plan = host.plan(&Wanted { with_between: true, ..wanted(Some("tank/a@1")) }).unwrap();
        assert_eq!(steps(&plan), [(Some("tank/a@1"), "tank/a@2"), (Some("tank/a@2"), "tank/a@3")]);
        let plan = host.plan(&Wanted { is_replication: true, ..wanted(None) }).unwrap();
        let all = [
            (None, "tank/a@1"),
            (Some("tank/a@1"), "tank/a@2"),
            (Some("tank/a@2"), "tank/a@3"),
            (None, "tank/a/b@2"),
            (Some("tank/a/b@2"), "tank/a/b@3"),
        ];
        assert_eq!(steps(&plan), all);
        let plan = host.plan(&Wanted { is_replication: true, ..wanted(Some("tank/a@1")) }).unwrap();
        assert_eq!(steps(&plan), [(Some("tank/a@1"), "tank/a@3"), (None, "tank/a/b@3")]);
    }

    #[test]
    fn what_is_missing_fails_a_replication_or_is_passed_over() {
        let mut host = prepared();
        let wanted = Wanted { name: "tank/a@1".into(), is_replication: true, ..Wanted::default() };
        let text = host.plan(&wanted).unwrap_err().to_string();
        assert!(text.starts_with("cannot send tank/a@1 recursively: snapshot tank/a/b@1 does not exist\n"), "{text}");
        let plan = host.plan(&Wanted { skips_missing: true, ..wanted }).unwrap();
        assert_eq!((plan.steps.len(), plan.warnings.len()), (1, 1));
    }

    #[test]
    fn a_source_is_older() {
        let mut host = prepared();
        let wanted = Wanted { name: "tank/a@1".into(), from: Some("tank/a@2".into()), ..Wanted::default() };
        let text = host.plan(&wanted).unwrap_err().to_string();
        assert_eq!(text, "warning: cannot send 'tank/a@1': not an earlier snapshot from the same fs\n");
        assert!(host.plan(&Wanted { with_between: true, ..wanted }).is_err());
    }

    #[test]
    fn a_plan_is_of_the_same_snapshots_after_renames() {
        let mut host = prepared();
        for (block, name) in ["tank/a@4", "tank/a@5"].iter().enumerate() {
            let path = host.open("tank/a").unwrap().path;
            host.layer.write(&path, 0, block as u32, &[1]).unwrap();
            snapshot(&mut host, name);
        }
        let wanted = Wanted { name: "tank/a@4".into(), from: Some("tank/a@3".into()), ..Wanted::default() };
        let step = host.plan(&wanted).unwrap().steps.remove(0);
        let (size, body) = (step.size(&mut host).unwrap(), step.body(&mut host).unwrap());
        for (old, new) in [("3", "third"), ("4", "fourth"), ("5", "4"), ("2", "3")] {
            host.change(|host| host.rename_snapshot(&format!("tank/a@{old}"), new, false).map_err(|_| Failure::Silent)).unwrap();
        }
        assert_eq!((step.size(&mut host), step.body(&mut host)), (Ok(size), Ok(body)));
        let fourth = host.open("tank/a@fourth").unwrap();
        host.change(|host| host.destroy_snapshots(&[fourth], false)).unwrap();
        assert!(step.body(&mut host).unwrap_err().to_string().contains("the snapshot was destroyed meanwhile"));
    }

    #[test]
    fn a_token_stands_for_the_rest_of_a_step() {
        let mut host = prepared();
        let guid = |host: &Host, name: &str| host.open(name).unwrap().guid();
        let token = Token { to_name: "tank/a@2".into(), to_guid: guid(&host, "tank/a@2"), from_guid: guid(&host, "tank/a@1"), at: 10 };
        let plan = host.plan_token(&token).unwrap();
        let rest = plan.steps[0].body(&mut host).unwrap();
        let whole = host.plan(&Wanted { name: "tank/a@2".into(), from: Some("tank/a@1".into()), ..Wanted::default() }).unwrap();
        assert_eq!(rest, whole.steps[0].body(&mut host).unwrap()[10..]);
        let text = |host: &mut Host, token: Token| host.plan_token(&token).unwrap_err().to_string();
        assert!(text(&mut host, Token { to_guid: 1, ..token.clone() }).contains("no longer the same snapshot"));
        assert!(text(&mut host, Token { from_guid: 1, ..token.clone() }).contains("incremental source 0x1 no longer exists"));
        assert!(text(&mut host, Token { to_name: "tank/a@9".into(), to_guid: 1, ..token }).contains("used in the initial send no longer exists"));
    }
}
