//! `zfs`, or `zpool` where it is called by that name.

use std::process::ExitCode;

fn main() -> ExitCode {
    yuz_zfs::client::run()
}
