//! The commands of zpool(8), as far as a pool in memory has a meaning for them.

mod iostat;
mod lifecycle;
pub mod property;
mod repeat;
mod show;
mod upgrade;
mod upkeep;
pub mod vdev;

use crate::call::Call;
use crate::failure::{Failure, Outcome};
use crate::usage::{Usage, ZpoolCommand};
use crate::world::PoolThread;
use std::sync::Arc;

pub fn run(call: &mut Call) -> Outcome {
    let words = call.request.arguments.clone();
    let Some(first) = words.first().map(String::as_str) else {
        return Err(Failure::Usage(Usage::AllOfZpool, "missing command".into()));
    };
    match first {
        "-?" | "--help" => {
            call.output.text(&Usage::AllOfZpool.to_string());
            return Ok(());
        }
        "-V" | "--version" => return crate::zfs::version(call),
        _ => {}
    }
    match ZpoolCommand::named(first) {
        Some(command) => run_command(call, command, &words[1..]),
        None => Err(Failure::Usage(Usage::AllOfZpool, format!("unrecognized command '{first}'"))),
    }
}

fn run_command(call: &mut Call, command: ZpoolCommand, words: &[String]) -> Outcome {
    match command {
        ZpoolCommand::Version => crate::zfs::version(call),
        ZpoolCommand::Create => lifecycle::create(call, words),
        ZpoolCommand::Destroy => lifecycle::destroy(call, words),
        ZpoolCommand::Export => lifecycle::export(call, words),
        ZpoolCommand::Import => lifecycle::import(call, words),
        ZpoolCommand::List => show::list(call, words),
        ZpoolCommand::Get => show::get(call, words),
        ZpoolCommand::Set => show::set(call, words),
        ZpoolCommand::Status => show::status(call, words),
        ZpoolCommand::Iostat => iostat::run(call, words),
        ZpoolCommand::History => show::history(call, words),
        ZpoolCommand::Upgrade => upgrade::run(call, words),
        other => upkeep::run(call, other, words),
    }
}

/// The pools of operands, or all where there are none. One that isn't there is told, and left out.
fn pools_of(call: &mut Call, operands: &[String]) -> Vec<Arc<PoolThread>> {
    if operands.is_empty() {
        return call.world.pools();
    }
    let mut pools = Vec::new();
    for operand in operands {
        match call.pool(operand) {
            Ok(pool) => pools.push(pool),
            Err(failure) => call.note(&failure),
        }
    }
    pools
}
