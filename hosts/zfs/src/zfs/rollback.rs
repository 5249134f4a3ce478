//! `zfs rollback`.

use super::walk;
use crate::call::Call;
use crate::dataset::Dataset;
use crate::dependents::{Dependents, Purpose};
use crate::failure::{Failure, Outcome};
use crate::host::Host;
use crate::name;
use crate::property::Kinds;
use crate::usage::{Usage, ZfsCommand};

const USAGE: Usage = Usage::Zfs(ZfsCommand::Rollback);

/// How many newer snapshots and bookmarks a message names.
const TOLD: usize = 32;

pub fn run(call: &mut Call, words: &[String]) -> Outcome {
    let options = call.options(words, "rRf", USAGE)?;
    let name = match &options.operands[..] {
        [] => return Err(Failure::Usage(USAGE, "missing dataset argument".into())),
        [name] => name.clone(),
        _ => return Err(Failure::Usage(USAGE, "too many arguments".into())),
    };
    let pool = walk::open(call, &name, Kinds::SNAPSHOT)?;
    let (is_recursive, with_clones) = (options.has('r') || options.has('R'), options.has('R'));
    call.change(&pool, move |host| {
        let snapshot = host.open(&name)?;
        if !with_clones {
            check(host, &snapshot, is_recursive)?;
        }
        host.roll_back(&snapshot)
    })?;
    call.log(&pool);
    Ok(())
}

/// What is newer, or clones of it, has to be named by an option.
fn check(host: &mut Host, snapshot: &Dataset, is_recursive: bool) -> Outcome {
    let name = &snapshot.name;
    let newer = host.newer_snapshots(snapshot);
    if !is_recursive {
        let bookmarks = host.tree.bookmarks(name::base(name)).into_iter().filter(|it| it.create_txg() > snapshot.create_txg());
        let names: Vec<String> = newer.into_iter().chain(bookmarks).map(|it| it.name).collect();
        if names.is_empty() {
            return Ok(());
        }
        let mut text = format!("cannot rollback to '{name}': more recent snapshots or bookmarks exist\n");
        text += "use '-r' to force deletion of the following snapshots and bookmarks:\n";
        text += &names.iter().take(TOLD).map(String::as_str).collect::<Vec<_>>().join("\n");
        if names.len() >= TOLD {
            text += &format!("\nOutput limited to {TOLD} snapshots/bookmarks");
        }
        return Err(Failure::Told(text));
    }
    let by_origin = host.all_clones();
    let clones: Vec<String> = newer.iter().flat_map(|it| Dependents::of(it, &host.tree, &by_origin, Purpose::Check).names).collect();
    if clones.is_empty() {
        return Ok(());
    }
    let head = format!("cannot rollback to '{name}': clones of previous snapshots exist");
    Err(Failure::Told(format!("{head}\nuse '-R' to force deletion of the following clones and dependents:\n{}", clones.join("\n"))))
}
