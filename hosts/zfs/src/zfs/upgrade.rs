//! `zfs upgrade`: which version file systems have. All have the newest, unless they were made with another.

use super::set::by_pool;
use crate::call::Call;
use crate::failure::{Failure, Outcome};
use crate::host::Host;
use crate::property::Kinds;
use crate::usage::{Usage, ZfsCommand};

const USAGE: Usage = Usage::Zfs(ZfsCommand::Upgrade);
const NEWEST: &str = "5";

/// What `-v` tells, as OpenZFS does.
const VERSIONS: &str = "The following filesystem versions are supported:

VER  DESCRIPTION
---  --------------------------------------------------------
 1   Initial ZFS filesystem version
 2   Enhanced directory entries
 3   Case insensitive and filesystem user identifier (FUID)
 4   userquota, groupquota properties
 5   System attributes

For more information on a particular version, including supported releases,
see the ZFS Administration Guide.
";

const OUT_OF_DATE: &str = "The following filesystems are out of date, and can be upgraded.  After being
upgraded, these filesystems (and any 'zfs send' streams generated from
subsequent snapshots) will no longer be accessible by older software versions.


VER  FILESYSTEM
---  ------------";

pub fn run(call: &mut Call, words: &[String]) -> Outcome {
    let options = call.options(words, "rvV:a", USAGE)?;
    let version = match options.argument('V') {
        None | Some("current") => NEWEST.to_owned(),
        Some(word @ ("1" | "2" | "3" | "4" | "5")) => word.to_owned(),
        Some(word) => return Err(Failure::Usage(USAGE, format!("invalid version {word}"))),
    };
    let (is_all, is_of_some) = (options.has('a'), !options.operands.is_empty());
    let (changes, says_how) = (is_all || is_of_some, options.has('r') || options.has('V'));
    let is_mixed = is_all && is_of_some || options.has('v') && changes || !changes && says_how;
    if is_mixed {
        return Err(Failure::Usage(USAGE, String::new()));
    }
    if options.has('v') {
        call.output.line(VERSIONS.trim_end_matches('\n'));
        call.output.line("");
        return Ok(());
    }
    if !changes {
        return list(call);
    }
    let pools: Vec<String> = call.world.pools().iter().map(|pool| pool.name.clone()).collect();
    let (names, is_recursive) = if is_all { (pools, true) } else { (options.operands.clone(), options.has('r')) };
    let mut upgraded = 0;
    for (pool, names) in by_pool(call, &names, Kinds::FILE_SYSTEM)? {
        let version = version.clone();
        upgraded += call.change(&pool, move |host| {
            let all = names.iter().flat_map(|name| if is_recursive { host.tree.with_below(name) } else { vec![name.clone()] });
            let all: Vec<String> = all.collect();
            Ok(all.iter().filter(|name| host.upgrade(name, &version)).count())
        })?;
    }
    call.output.line(&format!("{upgraded} filesystems upgraded"));
    Ok(())
}

impl Host {
    /// Gives an older file system a version; whether it was older.
    fn upgrade(&mut self, name: &str, version: &str) -> bool {
        let own = self.tree.get(name).and_then(|it| it.local.get("version"));
        let is_older = own.is_some_and(|own| own.as_str() < version);
        if let Some(file_system) = self.tree.edit(name).filter(|_| is_older) {
            file_system.local.insert("version".into(), version.to_owned());
        }
        is_older
    }
}

fn list(call: &mut Call) -> Outcome {
    call.output.line(&format!("This system is currently running ZFS filesystem version {NEWEST}.\n"));
    let mut older = Vec::new();
    for pool in call.world.pools() {
        let found = pool.run(|host| {
            let versions = host.tree.iter().filter_map(|(name, it)| Some((name.clone(), it.local.get("version")?.clone())));
            versions.filter(|(_, version)| version != NEWEST).collect::<Vec<_>>()
        })?;
        older.extend(found);
    }
    if older.is_empty() {
        call.output.line("All filesystems are formatted with the current version.");
        return Ok(());
    }
    call.output.line(OUT_OF_DATE);
    older.iter().for_each(|(name, version)| call.output.line(&format!("{version:>2}   {name}")));
    Ok(())
}
