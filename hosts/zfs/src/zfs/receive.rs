//! `zfs receive`.

use super::walk;
use crate::call::Call;
use crate::failure::{Action, Failure, Outcome, Reason, Trying};
use crate::host::Host;
use crate::name;
use crate::options::Options;
use crate::property::{Kinds, Property};
use crate::protocol::Status;
use crate::setting::{settings, Setting};
use crate::size;
use crate::stream::format::{read_body, read_head, read_magic, Begin, Broken, Head, Step};
use crate::stream::check::{check_overrides, check_values};
use crate::stream::receive::{destination, Arrived, Manner, Naming};
use crate::usage::{Usage, ZfsCommand};
use crate::world::PoolThread;
use std::iter;
use std::rc::Rc;
use std::sync::Arc;
use std::time::Instant;

const USAGE: Usage = Usage::Zfs(ZfsCommand::Receive);

pub fn run(call: &mut Call, words: &[String]) -> Outcome {
    let options = call.options(words, ":o:x:dehMnuvFsA", USAGE)?;
    let usage = |reason: &str| Err(Failure::Usage(USAGE, reason.to_owned()));
    if options.has('d') && options.has('e') {
        return usage("invalid option combination: -d and -e are mutually exclusive");
    }
    let (given, excluded) = overrides(&options)?;
    let target = match &options.operands[..] {
        [] => return usage("missing snapshot argument"),
        [target] => target.clone(),
        _ => return usage("too many arguments"),
    };
    if options.has('A') {
        return if ['d', 'e', 'n', 's', 'u'].into_iter().any(|letter| options.has(letter)) { usage("invalid option") } else { forget(call, &target) };
    }
    if call.is_input_terminal() {
        return Err(Failure::Told("Error: Backup stream can not be read from a terminal.\nYou must redirect standard input.".into()));
    }
    check_overrides(&given, &excluded).trying(|| Action::Receive)?;
    let (origins, given): (Vec<Setting>, Vec<Setting>) = given.into_iter().partition(|setting| setting.property == "origin");
    let origin = origins.into_iter().next().map(|setting| setting.value);
    // As a property may have another name too.
    let excluded = excluded.into_iter().map(|name| Property::named(&name).map_or(name, |property| property.to_string())).collect();
    let manner = Manner { origin, settings: given, excluded, clock: call.clock(), folder: call.request.folder.clone(), ..manner(&options, target) };
    receive(call, &manner)
}

/// What `-o` sets and `-x` leaves out. Each property is named once.
fn overrides(options: &Options) -> Outcome<(Vec<Setting>, Vec<String>)> {
    let usage = |reason: String| Failure::Usage(USAGE, reason);
    let (mut given, mut excluded): (Vec<Setting>, Vec<String>) = (Vec::new(), Vec::new());
    for found in options.found.iter().filter(|found| matches!(found.letter, 'o' | 'x')) {
        let word = found.argument.as_str();
        let set = settings(iter::once(word).filter(|_| found.letter == 'o'));
        let set = set.map_err(|failure| usage(failure.to_string().trim_end().to_owned()))?;
        let name = set.first().map_or(word, |setting| setting.property.as_str());
        if name.contains('=') {
            return Err(usage("invalid character '=' in property argument".into()));
        }
        if given.iter().any(|setting| setting.property == name) || excluded.iter().any(|other| other == name) {
            return Err(usage(format!("property '{name}' specified multiple times")));
        }
        excluded.extend(set.is_empty().then(|| name.to_owned()));
        given.extend(set);
    }
    Ok((given, excluded))
}

fn manner(options: &Options, target: String) -> Manner {
    let naming = if options.has('d') { Naming::AllButPool } else if options.has('e') { Naming::Last } else { Naming::Below };
    Manner {
        target,
        naming,
        is_forced: options.has('F'),
        is_resumable: options.has('s'),
        is_dry: options.has('n'),
        is_verbose: options.has('v'),
        is_unmounted: options.has('u'),
        skips_holds: options.has('h'),
        ..Manner::default()
    }
}

fn forget(call: &mut Call, target: &str) -> Outcome {
    let pool = walk::open(call, target, Kinds::FV).map_err(|failure| Failure::Usage(USAGE, failure.to_string().trim_end().to_owned()))?;
    let name = target.to_owned();
    call.change(&pool, move |host| host.forget_partial(&name))?;
    call.log(&pool);
    Ok(())
}

fn receive(call: &mut Call, manner: &Manner) -> Outcome {
    if manner.naming != Naming::Below {
        let name = manner.target.clone();
        let is_there = call.world.pool_of(&name).map(|pool| pool.run(move |host| host.tree.has(&name))).transpose()?;
        if is_there != Some(true) {
            return Err(Failure::Cannot(Action::Receive, Reason::Text(format!("specified fs ({}) does not exist", manner.target))));
        }
    }
    if let Some(origin) = manner.origin.as_ref().filter(|origin| walk::open(call, origin, Kinds::FVS).is_err()) {
        return Err(Failure::Cannot(Action::Receive, Reason::Text(format!("specified origin fs ({origin}) does not exist"))));
    }
    read_magic(call).map_err(|broken| unreadable(&broken))?;
    let begin = match read_head(call).map_err(|broken| unreadable(&broken))? {
        (Head::Begin(begin), 0) => begin,
        _ => return Err(unreadable(&Broken::Damaged)),
    };
    check_values(&manner.settings).trying(|| Action::Receive)?;
    // OpenZFS hands an origin to a lone stream alone.
    let manner = &Manner { origin: manner.origin.clone().filter(|_| !begin.is_compound), ..manner.clone() };
    let Some(pool) = call.world.pool_of(&manner.target) else { return Err(no_pool(call, manner, &begin)) };
    if begin.is_replication && begin.is_incremental && !manner.is_dry {
        let (manner, begin) = (manner.clone(), begin.clone());
        call.change(&pool, move |host| host.follow_sender(&manner, &begin))?;
    }
    let made = receive_steps(call, &pool, manner, &begin)?;
    if !manner.is_unmounted && !made.is_empty() {
        let told = pool.run(move |host| host.mount_made(&made))?;
        tell_unmounted(call, &told);
    }
    call.log(&pool);
    Ok(())
}

/// Receives one step after another. The file systems that were made.
fn receive_steps(call: &mut Call, pool: &Arc<PoolThread>, manner: &Manner, begin: &Begin) -> Outcome<Vec<String>> {
    let (mut top, mut made) = (None, Vec::new());
    let mut next = read_head(call).map_err(|broken| unreadable(&broken))?;
    loop {
        let (step, length) = match next {
            (Head::End, 0) => return Ok(made),
            (Head::Step(step), length) => (step.onto(manner.origin.as_deref()), length),
            _ => return Err(unreadable(&Broken::Damaged)),
        };
        let goal = destination(manner, begin, &step.to_name)?;
        let top = top.get_or_insert_with(|| name::base(&goal).to_owned());
        let is_top = top == name::base(&goal);
        next = receive_step(call, pool, manner, step, length, Goal { name: goal, is_top, is_replication: begin.is_replication }, &mut made)?;
    }
}

/// Tells what can't be mounted, and that the command ends with status 1 for it.
fn tell_unmounted(call: &mut Call, told: &[String]) {
    told.iter().for_each(|line| call.output.error(line));
    if !told.is_empty() {
        call.status = Status::Failed;
    }
}

/// Where a step goes.
struct Goal {
    name: String,
    is_top: bool,
    is_replication: bool,
}

/// Receives a step, once the head behind it has come: a stream that is cut before its end leaves nothing of its last step. That head; and what was
/// made is added to the names.
fn receive_step(
    call: &mut Call,
    pool: &Arc<PoolThread>,
    manner: &Manner,
    step: Step,
    length: u64,
    goal: Goal,
    made: &mut Vec<String>,
) -> Outcome<(Head, u64)> {
    let begin = Instant::now();
    let has_already = announce(call, pool, manner, &step, &goal)?;
    let bytes = match read_body(call, &step, length) {
        Ok(bytes) => bytes,
        Err(Broken::CutBody(step, bytes)) => return Err(cut(call, pool, manner, &goal.name, &step, bytes)),
        Err(broken) => return Err(unreadable(&broken)),
    };
    let next = match read_head(call) {
        Ok(next) => next,
        Err(Broken::Cut) if !has_already => return Err(cut(call, pool, manner, &goal.name, &step, bytes)),
        Err(broken) => return Err(unreadable(&broken)),
    };
    if manner.is_dry {
        return Ok(next);
    }
    let count = if has_already { 0 } else { bytes.len() as u64 };
    if !has_already {
        made.extend(take(call, pool, manner, step, bytes, goal)?);
    }
    if manner.is_verbose {
        let seconds = begin.elapsed().as_secs().max(1);
        call.output.line(&format!("received {} stream in {seconds} seconds ({}/sec)", size::bytes(count), size::bytes(count / seconds)));
        call.flush();
    }
    Ok(next)
}

/// Receives a step that has come whole. The name of the file system that it made, if it did.
fn take(call: &mut Call, pool: &Arc<PoolThread>, manner: &Manner, step: Step, bytes: Vec<u8>, goal: Goal) -> Outcome<Option<String>> {
    let (manner_here, base) = (manner.clone(), name::base(&goal.name).to_owned());
    let received = call.change(pool, move |host| {
        let Goal { name: destination, is_top, is_replication } = goal;
        let arrived = Arrived { destination, step, bytes: Rc::new(bytes), is_top, is_replication };
        host.receive_step(&manner_here, &arrived)
    })?;
    received.told.iter().for_each(|line| call.output.error(line));
    tell_unmounted(call, &received.unmounted);
    Ok(received.is_made.then_some(base))
}

/// Looks whether a step may be received, and tells of it with `-v`. Whether its snapshot is there already, which is passed over.
fn announce(call: &mut Call, pool: &Arc<PoolThread>, manner: &Manner, step: &Step, goal: &Goal) -> Outcome<bool> {
    let look = |look: fn(&mut Host, &Manner, &str, &Step) -> Outcome<bool>| {
        let (asked, sent, name) = (manner.clone(), step.clone(), goal.name.clone());
        pool.run(move |host| look(host, &asked, &name, &sent))?
    };
    if manner.is_verbose {
        tell_origin(call, pool, manner, step, goal)?;
    }
    look(|host, manner, name, step| host.check_receive(manner, name, step).map(|()| false))?;
    if manner.is_verbose {
        let deed = if manner.is_dry { "would receive" } else { "receiving" };
        let kind = if step.from_guid == 0 { "full" } else { "incremental" };
        call.output.line(&format!("{deed} {kind} stream of {} into {}", step.to_name, goal.name));
        call.flush();
    }
    let has_already = !manner.is_dry && look(Host::check_begin)?;
    if has_already && manner.is_verbose {
        call.output.line(&format!("snap {} already exists; ignoring", goal.name));
        call.flush();
    }
    Ok(has_already)
}

/// Tells the origin of a clone.
fn tell_origin(call: &mut Call, pool: &Arc<PoolThread>, manner: &Manner, step: &Step, goal: &Goal) -> Outcome {
    if let Some(origin) = &manner.origin {
        call.output.line(&format!("using provided clone origin {origin}"));
    } else if step.is_clone {
        let (base, guid) = (name::base(&goal.name).to_owned(), step.from_guid);
        let origin = pool.run(move |host| host.by_guid(&base, guid).map(|it| it.name))?;
        origin.iter().for_each(|origin| call.output.line(&format!("found clone origin {origin}")));
    }
    Ok(())
}

/// A stream that ended in a step: with `-s` what came is kept.
fn cut(call: &Call, pool: &Arc<PoolThread>, manner: &Manner, goal: &str, step: &Step, bytes: Vec<u8>) -> Failure {
    let action = step.action();
    let fail = |reason: String| Failure::Cannot(action.clone(), Reason::Text(reason));
    if !manner.is_resumable || manner.is_dry || bytes.is_empty() {
        return fail("incomplete stream".into());
    }
    let (kept, name, sent) = (manner.clone(), goal.to_owned(), step.clone());
    match call.change(pool, move |host| host.keep_partial(&kept, &name, &sent, bytes)) {
        Ok(token) => fail(format!(
            "checksum mismatch or incomplete stream.\nPartially received snapshot is saved.\n\
             A resuming stream can be generated on the sending system by running:\n    zfs send -t {token}"
        )),
        Err(failure) => failure,
    }
}

/// What is said where there is no pool of that name: what the stream's first step meets.
fn no_pool(call: &mut Call, manner: &Manner, begin: &Begin) -> Failure {
    let action = match read_head(call) {
        Ok((Head::Step(step), _)) => {
            let step = step.onto(manner.origin.as_deref());
            match destination(manner, begin, &step.to_name) {
                Ok(goal) if step.is_clone && manner.origin.is_none() => {
                    return Failure::Cannot(Action::Receive, Reason::Text(format!("local origin for clone {goal} does not exist")));
                }
                Ok(_) => step.action(),
                Err(failure) => return failure,
            }
        }
        Ok(_) => Action::ReceiveNew,
        Err(broken) => return unreadable(&broken),
    };
    let base = name::base(&manner.target);
    match name::parent(base) {
        Some(above) if action == Action::ReceiveNew => {
            Failure::Told(format!("cannot open '{above}': dataset does not exist\n{action}: unable to restore to destination"))
        }
        _ => Failure::Cannot(action, Reason::Text(format!("destination '{base}' does not exist"))),
    }
}

/// What can't be read is said as libzfs says it.
fn unreadable(broken: &Broken) -> Failure {
    let reason = match broken {
        Broken::Empty | Broken::Cut | Broken::CutBody(..) => "failed to read from stream",
        Broken::NotStream => "invalid stream (bad magic number)",
        Broken::Damaged => "invalid stream (checksum mismatch)",
        Broken::NoMemory => "out of memory",
    };
    Failure::Cannot(Action::Receive, Reason::Text(reason.into()))
}
