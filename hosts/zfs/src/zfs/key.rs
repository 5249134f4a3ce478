//! `zfs load-key`, `unload-key` and `change-key`: no pool here has encryption, so there is no key.

use super::walk;
use crate::call::Call;
use crate::failure::{Failure, Outcome, Reason};
use crate::property::Kinds;
use crate::protocol::Status;
use crate::usage::{Usage, ZfsCommand};

/// How a command line is read, and how its failures begin.
fn form(command: ZfsCommand) -> (&'static str, &'static str) {
    match command {
        ZfsCommand::LoadKey => ("anrL:", "Key load error"),
        ZfsCommand::UnloadKey => ("ar", "Key unload error"),
        _ => ("lio:", "Key change error"),
    }
}

pub fn run(call: &mut Call, command: ZfsCommand, words: &[String]) -> Outcome {
    let usage = Usage::Zfs(command);
    let (letters, error) = form(command);
    let options = call.options(words, letters, usage)?;
    let reason = |reason: &str| Err(Failure::Usage(usage, reason.to_owned()));
    let name = match &options.operands[..] {
        [] if options.has('a') => return Ok(()),
        [] if command == ZfsCommand::ChangeKey => return reason("Missing dataset argument"),
        [] => return reason("Missing dataset argument or -a option"),
        [_, ..] if options.has('a') => return reason("Cannot specify dataset with -a option"),
        [name] => name,
        _ => return reason("Too many arguments"),
    };
    let opened = walk::open(call, name, Kinds::FV);
    if command == ZfsCommand::ChangeKey {
        opened.map_err(|failure| Failure::Usage(usage, failure.to_string().trim_end().to_owned()))?;
    } else {
        opened?;
    }
    if options.has('r') {
        return Ok(());
    }
    // OpenZFS hands on a -1 there.
    Err(Failure::ToldWith(Status::Other(255), format!("{error}: {}", Reason::NoEncryption)))
}
