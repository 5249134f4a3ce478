//! The daemon: keeps pools in memory, and answers `zfs` and `zpool` over a Unix socket.

use std::process::ExitCode;

fn main() -> ExitCode {
    yuz_zfs::daemon::run()
}
