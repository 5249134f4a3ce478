//! `zfs set` and `zfs inherit`.

use super::walk;
use crate::call::Call;
use crate::failure::{Action, Failure, Outcome, Reason, Trying};
use crate::host::Host;
use crate::mounting::Affected;
use crate::name;
use crate::property::{Kinds, Native, Property};
use crate::protocol::Status;
use crate::setting::{applies, check, settings, Checked, Setting};
use crate::usage::{Usage, ZfsCommand};
use crate::world::PoolThread;
use std::sync::Arc;

const SET: Usage = Usage::Zfs(ZfsCommand::Set);
const INHERIT: Usage = Usage::Zfs(ZfsCommand::Inherit);

/// Operands by their pools.
pub type Groups = Vec<(Arc<PoolThread>, Vec<String>)>;

/// The pools of operands that are all there, each with its own.
pub fn by_pool(call: &Call, names: &[String], kinds: Kinds) -> Outcome<Groups> {
    let (groups, missing) = found_by_pool(call, names, kinds);
    match missing.into_iter().next() {
        Some(failure) => Err(failure),
        None => Ok(groups),
    }
}

/// The pools of operands that are there, and what is wrong with the others.
fn found_by_pool(call: &Call, names: &[String], kinds: Kinds) -> (Groups, Vec<Failure>) {
    let mut groups: Groups = Vec::new();
    let mut missing = Vec::new();
    for name in names {
        match walk::open(call, name, kinds) {
            Ok(pool) => match groups.iter_mut().find(|(one, _)| one.name == pool.name) {
                Some((_, group)) => group.push(name.clone()),
                None => groups.push((pool, vec![name.clone()])),
            },
            Err(failure) => missing.push(failure),
        }
    }
    (groups, missing)
}

/// Does something with each operand, or nothing: then it is told of each what is wrong with it. What is done may have something that is told of it.
fn with_each(call: &Call, names: &[String], each: impl Fn(&mut Host, &str) -> Outcome<Vec<String>> + Clone + Send + 'static) -> Outcome {
    let (mut groups, mut wrong) = found_by_pool(call, names, Kinds::FVS);
    groups.sort_by(|(one, _), (other, _)| one.name.cmp(&other.name));
    for (pool, mut names) in groups {
        let (each, is_wrong) = (each.clone(), !wrong.is_empty());
        let done = call.change(&pool, move |host| {
            // Each once, in the order of names and of snapshots' times, whatever the order of the operands.
            names.sort_by_cached_key(|name| (name::base(name).to_owned(), name.contains('@'), host.tree.find(name).map(|it| it.create_txg())));
            names.dedup();
            let (mut told, mut failures) = (Vec::new(), Vec::new());
            names.iter().for_each(|name| each(host, name).map_or_else(|failure| failures.push(failure), |lines| told.extend(lines)));
            if failures.is_empty() && !is_wrong { Ok(told) } else { Err(Failure::Several(failures)) }
        });
        match done {
            Ok(told) => {
                call.log(&pool);
                wrong.extend(told.into_iter().map(Failure::Told));
            }
            Err(Failure::Several(failures)) => wrong.extend(failures),
            Err(other) => wrong.push(other),
        }
    }
    if wrong.is_empty() { Ok(()) } else { Err(Failure::Several(wrong)) }
}

pub fn set(call: &mut Call, words: &[String]) -> Outcome {
    let usage = |reason: String| Failure::Usage(SET, reason);
    let first = words.first().ok_or_else(|| usage("missing arguments".into()))?;
    if let Some(letter) = first.strip_prefix('-') {
        return Err(usage(format!("invalid option '{}'", letter.chars().next().unwrap_or('\0'))));
    }
    if words.len() < 2 {
        let reason = if first.contains('=') { "missing dataset name(s)" } else { "missing property=value argument(s)" };
        return Err(usage(reason.into()));
    }
    let count = words.iter().take_while(|word| word.contains('=')).count();
    let (pairs, names) = words.split_at(count);
    if names.iter().any(|word| word.contains('=')) {
        return Err(usage("invalid argument order".into()));
    }
    if names.is_empty() {
        return Err(usage("missing dataset name(s)".into()));
    }
    // OpenZFS hands on a -1 there.
    let settings = settings(pairs.iter().map(String::as_str)).map_err(|failure| match failure {
        Failure::Told(text) => Failure::ToldWith(Status::Other(255), text),
        other => other,
    })?;
    let folder = call.request.folder.clone();
    with_each(call, names, move |host, name| set_one(host, name, &settings, &folder))
}

/// Sets properties of a dataset. What is told of mounts that fail after that.
fn set_one(host: &mut Host, name: &str, settings: &[Setting], folder: &str) -> Outcome<Vec<String>> {
    let action = || Action::SetProperty(name.to_owned());
    let kind = host.open(name)?.kind();
    let checked = settings.iter().map(|setting| check(setting, kind, false)).collect::<Result<Vec<_>, _>>().trying(action)?;
    let acts = |checked: &Checked| !matches!(checked, Checked::Native(Native::CanMount, value) if value != "off");
    let properties: Vec<Property> = checked.iter().filter(|it| acts(it)).map(Checked::property).collect();
    let affected: Vec<Affected> = properties.iter().filter_map(|property| host.affected(name, property)).collect();
    affected.iter().try_for_each(|it| host.check_change(it, folder))?;
    checked.iter().try_for_each(|setting| host.set(name, setting)).trying(action)?;
    let mut told: Vec<String> = affected.iter().flat_map(|it| host.settle_mounts(it)).collect();
    told.extend((!told.is_empty()).then(|| "property may be set but unable to remount filesystem".to_owned()));
    Ok(told)
}

pub fn inherit(call: &mut Call, words: &[String]) -> Outcome {
    let options = call.options(words, "rS", INHERIT)?;
    let usage = |reason: &str| Failure::Usage(INHERIT, reason.to_owned());
    let [word, names @ ..] = &options.operands[..] else { return Err(usage("missing property argument")) };
    if names.is_empty() {
        return Err(usage("missing dataset argument"));
    }
    let to_received = options.has('S');
    let property = inheritable(word, to_received)?;
    let (is_recursive, folder) = (options.has('r'), call.request.folder.clone());
    with_each(call, names, move |host, name| {
        let targets = if is_recursive && !name.contains('@') { host.tree.with_below(name) } else { vec![name.to_owned()] };
        let mut told = Vec::new();
        for target in targets {
            let action = || Action::Inherit(format!("{property} for '{target}'"));
            let kind = host.open(&target)?.kind();
            if applies(&property, kind) {
                let affected = host.affected(&target, &property);
                affected.iter().try_for_each(|it| host.check_change(it, &folder))?;
                host.inherit(&target, &property, to_received).trying(action)?;
                told.extend(affected.iter().flat_map(|it| host.settle_mounts(it)));
            } else if !is_recursive {
                return Err(Failure::Cannot(action(), Reason::Text("property doesn't apply to datasets of this type".into())));
            }
        }
        Ok(told)
    })
}

/// The property of a word, where it may be inherited, or with `-S` be what was received.
fn inheritable(word: &str, to_received: bool) -> Outcome<Property> {
    let told = |text: String| Err(Failure::Told(text));
    match Property::named(word) {
        Some(Property::Native(native)) if native.is_read_only() => told(format!("{word} property is read-only")),
        Some(Property::Native(native)) if to_received && matches!(native, Native::VolSize | Native::Version) => {
            told(format!("'{word}' property cannot be reverted to a received value"))
        }
        Some(Property::Native(native)) if !native.is_inherited() && !to_received => {
            let mut text = format!("'{word}' property cannot be inherited");
            if native.is_limit() {
                text += &format!("\nuse 'zfs set {word}=none' to clear\nuse 'zfs inherit -S {word}' to revert to received value");
            }
            told(text)
        }
        Some(property @ (Property::Native(_) | Property::User(_))) => Ok(property),
        _ => Err(Failure::Usage(INHERIT, format!("invalid property '{word}'"))),
    }
}
