//! `zpool upgrade`: pools have all features from their creation on.

use super::property::{PoolProperty, FEATURES};
use crate::call::Call;
use crate::failure::{Failure, Outcome};
use crate::usage::{Usage, ZpoolCommand};

const USAGE: Usage = Usage::Zpool(ZpoolCommand::Upgrade);

/// The versions of pools before features.
const LEGACY: [&str; 28] = [
    "Initial ZFS version", "Ditto blocks (replicated metadata)", "Hot spares and double parity RAID-Z", "zpool history",
    "Compression using the gzip algorithm", "bootfs pool property", "Separate intent log devices", "Delegated administration",
    "refquota and refreservation properties", "Cache devices", "Improved scrub performance", "Snapshot properties", "snapused property",
    "passthrough-x aclinherit", "user/group space accounting", "stmf property support", "Triple-parity RAID-Z", "Snapshot user holds",
    "Log device removal", "Compression using zle (zero-length encoding)", "Deduplication", "Received properties", "Slim ZIL",
    "System attributes", "Improved scrub stats", "Improved snapshot deletion performance", "Improved snapshot creation performance",
    "Multiple vdev replacements",
];

pub fn run(call: &mut Call, words: &[String]) -> Outcome {
    let options = call.options(words, "avV:", USAGE)?;
    let usage = |reason: &str| Err(Failure::Usage(USAGE, reason.to_owned()));
    if let Some(word) = options.argument('V').filter(|word| !matches!(word.parse::<u64>(), Ok(1..=28 | 5000))) {
        return usage(&format!("invalid version '{word}'"));
    }
    let has_pools = !options.operands.is_empty();
    if options.has('v') && (options.has('a') || has_pools) {
        return usage("-v option is incompatible with other arguments");
    }
    if options.has('a') && has_pools {
        return usage("-a option should not be used along with a pool name");
    }
    let pools = options.operands.iter().map(|name| call.pool(name)).collect::<Outcome<Vec<_>>>()?;
    call.output.line("This system supports ZFS pool feature flags.\n");
    if options.has('v') {
        call.output.text(&versions());
        return Ok(());
    }
    let pools = if options.has('a') { call.world.pools() } else { pools };
    for pool in pools {
        pool.run(|host| host.facts.properties.retain(|name, value| !(name.starts_with("feature@") && value == "disabled")))?;
        call.output.line(&format!("Pool '{}' already has all supported and requested features enabled.", pool.name));
    }
    if !has_pools {
        call.output.line("All pools are formatted using feature flags.\n");
        call.output.line("Every feature flags pool has all supported and requested features enabled.");
    }
    Ok(())
}

fn versions() -> String {
    let mut text = format!("The following features are supported:\n\nFEAT DESCRIPTION\n{}\n", "-".repeat(61));
    for feature in FEATURES {
        text += &format!("{}\n", PoolProperty::Feature(feature.to_owned()).to_string().trim_start_matches("feature@"));
    }
    text += &format!("\nThe following legacy versions are also supported:\n\nVER  DESCRIPTION\n---  {}\n", "-".repeat(56));
    for (place, version) in LEGACY.iter().enumerate() {
        text += &format!(" {:<3} {version}\n", place + 1);
    }
    text + "\nFor more information on a particular version, including supported releases,\nsee the ZFS Administration Guide.\n\n"
}
