//! The commands that look after devices. A pool in memory has none, so those that wait, look or clean find nothing to do, and the others can't be
//! done.

use crate::call::Call;
use crate::failure::{Failure, Outcome};
use crate::options::Options;
use crate::protocol::Status;
use crate::usage::{Usage, ZpoolCommand};
use std::fs::File;
use std::path::Path;

/// What a command can do without devices.
#[derive(Clone, Copy, Debug, PartialEq, Eq)]
enum Answer {
    /// Nothing is left to do.
    Done,
    Unsupported,
}

/// How a command line is read: its options, and what its usage calls the operands that it can't do without.
struct Form {
    answer: Answer,
    letters: &'static str,
    operands: &'static [&'static str],
}

fn form(command: ZpoolCommand) -> Form {
    let (answer, letters, operands): (Answer, &'static str, &'static [&'static str]) = match command {
        ZpoolCommand::Scrub => (Answer::Done, "spw", &["missing pool name argument"]),
        ZpoolCommand::Trim => (Answer::Done, "cdr:sw", &["missing pool name argument"]),
        ZpoolCommand::Clear => (Answer::Done, "FnX", &["missing pool name"]),
        ZpoolCommand::Reopen => (Answer::Done, "n", &[]),
        ZpoolCommand::Sync => (Answer::Done, "", &[]),
        ZpoolCommand::Wait => (Answer::Done, "HpT:t:", &["missing 'pool' argument"]),
        ZpoolCommand::Labelclear => (Answer::Done, "f", &["missing vdev name"]),
        ZpoolCommand::Resilver => (Answer::Unsupported, "", &["missing pool name argument"]),
        ZpoolCommand::Add => (Answer::Unsupported, "fgLno:P", &["missing pool name argument", "missing vdev specification"]),
        ZpoolCommand::Remove => (Answer::Unsupported, "npsw", &["missing pool name argument", "missing device"]),
        ZpoolCommand::Attach => {
            let operands = &["missing pool name argument", "missing <device> specification", "missing <new_device> specification"];
            (Answer::Unsupported, "fo:sw", operands)
        }
        ZpoolCommand::Replace => (Answer::Unsupported, "fo:sw", &["missing pool name argument", "missing <device> specification"]),
        ZpoolCommand::Detach => (Answer::Unsupported, "", &["missing pool name argument", "missing <device> specification"]),
        ZpoolCommand::Online => (Answer::Unsupported, "e", &["missing pool name", "missing device name"]),
        ZpoolCommand::Offline => (Answer::Unsupported, "ft", &["missing pool name", "missing device name"]),
        ZpoolCommand::Split => (Answer::Unsupported, ":gLR:lno:P", &["Missing pool name", "Missing new pool name"]),
        ZpoolCommand::Initialize => (Answer::Unsupported, "csw", &["missing pool name argument"]),
        ZpoolCommand::Checkpoint => (Answer::Unsupported, "dw", &["missing pool argument"]),
        ZpoolCommand::Reguid => (Answer::Unsupported, "", &["missing pool name"]),
        _ => (Answer::Unsupported, "", &[]),
    };
    Form { answer, letters, operands }
}

/// The activities of a pool that a caller may wait for.
const ACTIVITIES: [&str; 8] = ["discard", "free", "initialize", "replace", "remove", "resilver", "scrub", "trim"];

pub fn run(call: &mut Call, command: ZpoolCommand, words: &[String]) -> Outcome {
    let usage = Usage::Zpool(command);
    let form = form(command);
    let unsupported = || Failure::Told(format!("zpool {}: not supported here: a pool in memory has no devices", command.name()));
    if command == ZpoolCommand::Events {
        return Err(unsupported());
    }
    let options = call.options(words, form.letters, usage)?;
    check_options(command, &options, usage)?;
    if let Some(missing) = form.operands.get(options.operands.len()) {
        return Err(Failure::Usage(usage, (*missing).to_owned()));
    }
    match (command, &options.operands[..]) {
        (ZpoolCommand::Labelclear, [device, ..]) => return check_device(&call.request.folder, device),
        (ZpoolCommand::Scrub | ZpoolCommand::Resilver | ZpoolCommand::Sync | ZpoolCommand::Checkpoint, pools) => {
            pools.iter().try_for_each(|pool| call.pool(pool).map(drop))?;
        }
        // OpenZFS hands on a -1 there.
        (ZpoolCommand::Trim | ZpoolCommand::Initialize, [pool, ..]) => {
            call.pool(pool).map_err(|failure| Failure::ToldWith(Status::Other(255), failure.to_string().trim_end().to_owned()))?;
        }
        (_, [pool, ..]) => drop(call.pool(pool)?),
        _ => {}
    }
    match (form.answer, &options.operands[..]) {
        (Answer::Unsupported, _) => Err(unsupported()),
        (Answer::Done, [_, device, ..]) if command == ZpoolCommand::Clear => {
            Err(Failure::Told(format!("cannot clear errors for {device}: no such device in pool")))
        }
        (Answer::Done, [pool, ..]) if command == ZpoolCommand::Scrub => {
            check_scrub(pool, &options)?;
            scrub(call, &options.operands)
        }
        _ => Ok(()),
    }
}

fn check_options(command: ZpoolCommand, options: &Options, usage: Usage) -> Outcome {
    if command == ZpoolCommand::Scrub && options.has('s') && options.has('p') {
        return Err(Failure::Usage(usage, "invalid option combination: -s and -p are mutually exclusive".into()));
    }
    let named = if command == ZpoolCommand::Wait { options.argument('t').unwrap_or_default() } else { "" };
    match named.split_terminator(',').find(|word| !ACTIVITIES.contains(word)) {
        Some(word) => Err(Failure::Usage(usage, format!("invalid activity '{word}'"))),
        None => Ok(()),
    }
}

/// A scrub is over when its command ends, so none can be stopped.
fn check_scrub(pool: &str, options: &Options) -> Outcome {
    let deed = match (options.has('s'), options.has('p')) {
        (true, _) => "cancel",
        (_, true) => "pause",
        _ => return Ok(()),
    };
    Err(Failure::Told(format!("cannot {deed} scrubbing {pool}: there is no active scrub")))
}

/// Keeps for `zpool status` when the pools were scrubbed.
fn scrub(call: &Call, pools: &[String]) -> Outcome {
    let clock = call.clock();
    pools.iter().try_for_each(|pool| call.pool(pool)?.run(move |host| host.scrubbed = Some(clock)))
}

/// A device without a label is as it should be; one that isn't there is none.
fn check_device(folder: &str, device: &str) -> Outcome {
    match File::open(Path::new(folder).join(device)) {
        Ok(_) => Ok(()),
        Err(_) => Err(Failure::Told(format!("failed to open {device}: No such file or directory"))),
    }
}
