//! The commands of zfs(8).

mod clone;
mod contents;
mod create;
mod destroy;
mod diff;
mod get;
mod hold;
mod key;
mod list;
mod mount;
mod receive;
mod rename;
mod rollback;
mod send;
mod set;
mod snapshot;
mod upgrade;
mod walk;

use crate::call::Call;
use crate::daemon::NOTE;
use crate::failure::{Failure, Outcome};
use crate::property::Kinds;
use crate::usage::{Usage, ZfsCommand};

/// The version of OpenZFS whose texts and options these are.
pub const VERSION: &str = "zfs-2.1.11-yuzgont";

pub fn run(call: &mut Call) -> Outcome {
    let words = call.request.arguments.clone();
    let Some(first) = words.first().map(String::as_str) else {
        return Err(Failure::Usage(Usage::AllOfZfs, "missing command".into()));
    };
    match first {
        "-?" | "--help" => {
            call.output.text(&Usage::AllOfZfs.to_string());
            return Ok(());
        }
        "-V" | "--version" => return version(call),
        "yuz-write" => return contents::write(call, &words[1..]),
        "yuz-read" => return contents::read(call, &words[1..]),
        _ => {}
    }
    let name = match first {
        "umount" => "unmount",
        "recv" => "receive",
        "snap" => "snapshot",
        other => other,
    };
    match ZfsCommand::named(name) {
        Some(command) => run_command(call, command, &words[1..]),
        None if name.contains('=') => run_command(call, ZfsCommand::Set, &words),
        None => Err(Failure::Usage(Usage::AllOfZfs, format!("unrecognized command '{name}'"))),
    }
}

pub fn version(call: &mut Call) -> Outcome {
    call.output.line(VERSION);
    call.output.line("zfs-kmod-2.1.11-yuzgont");
    call.output.error(NOTE);
    Ok(())
}

fn run_command(call: &mut Call, command: ZfsCommand, words: &[String]) -> Outcome {
    if words.first().is_some_and(|word| matches!(word.as_str(), "-?" | "--help")) {
        return Err(Failure::Usage(Usage::Zfs(command), "invalid option '?'".into()));
    }
    match command {
        ZfsCommand::Version => version(call),
        ZfsCommand::Create => create::run(call, words),
        ZfsCommand::List => list::run(call, words),
        ZfsCommand::Get => get::run(call, words),
        ZfsCommand::Set => set::set(call, words),
        ZfsCommand::Inherit => set::inherit(call, words),
        ZfsCommand::Destroy => destroy::run(call, words),
        ZfsCommand::Snapshot => snapshot::snapshot(call, words),
        ZfsCommand::Bookmark => snapshot::bookmark(call, words),
        ZfsCommand::Rollback => rollback::run(call, words),
        ZfsCommand::Clone => clone::clone(call, words),
        ZfsCommand::Promote => clone::promote(call, words),
        ZfsCommand::Rename => rename::run(call, words),
        ZfsCommand::Hold => hold::hold(call, words),
        ZfsCommand::Release => hold::release(call, words),
        ZfsCommand::Holds => hold::holds(call, words),
        ZfsCommand::Mount => mount::mount(call, words),
        ZfsCommand::Unmount => mount::unmount(call, words),
        ZfsCommand::Share => mount::share(call, words),
        ZfsCommand::Unshare => mount::unshare(call, words),
        ZfsCommand::Upgrade => upgrade::run(call, words),
        ZfsCommand::Diff => diff::run(call, words),
        ZfsCommand::LoadKey | ZfsCommand::UnloadKey | ZfsCommand::ChangeKey => key::run(call, command, words),
        ZfsCommand::Wait => wait(call, words),
        ZfsCommand::Send => send::run(call, words),
        ZfsCommand::Receive => receive::run(call, words),
        other => Err(Failure::Told(format!("zfs {}: not supported here: Yuzgont's layer has nothing for it", other.name()))),
    }
}

/// Nothing here goes on in the background, so what there is to wait for is over.
fn wait(call: &mut Call, words: &[String]) -> Outcome {
    let usage = Usage::Zfs(ZfsCommand::Wait);
    let options = call.options(words, "t:", usage)?;
    let reason = |reason: String| Err(Failure::Usage(usage, reason));
    if let Some(word) = options.argument('t').unwrap_or_default().split_terminator(',').find(|word| *word != "deleteq") {
        return reason(format!("invalid activity '{word}'"));
    }
    match &options.operands[..] {
        [] => reason("missing 'filesystem' argument".into()),
        [name] => walk::open(call, name, Kinds::FILE_SYSTEM).map(drop),
        _ => reason("too many arguments".into()),
    }
}
