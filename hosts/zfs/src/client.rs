//! The client: sends what it was called with, and ends with the status that comes back.

use crate::protocol::{self, Request};
use crate::sys;
use std::io::{self, Read};
use std::os::unix::net::UnixStream;
use std::process::ExitCode;

/// What the tools of OpenZFS say where there is no module to talk to.
const NO_DAEMON: &str = "The ZFS modules are not loaded.\nTry running '/sbin/modprobe zfs' as root to load them.";

pub fn run() -> ExitCode {
    let request = Request::of_process();
    // Root may use anybody's daemon.
    let is_own = sys::user() == 0 || protocol::check_folder(&protocol::folder()).is_ok();
    let Some(socket) = UnixStream::connect(protocol::socket()).ok().filter(|_| is_own) else {
        eprintln!("{NO_DAEMON}\n(There is no kernel module here: yuzd has to run, with its socket at {}.)", protocol::socket().display());
        return ExitCode::FAILURE;
    };
    match ask(&socket, &request) {
        Ok(status) => ExitCode::from(status),
        Err(error) => {
            eprintln!("{}: {error}", request.program);
            ExitCode::FAILURE
        }
    }
}

/// A daemon that ends in between is an error.
fn ask(mut socket: &UnixStream, request: &Request) -> io::Result<u8> {
    request.send(socket, [0, 1, 2])?;
    // The daemon has them now. A pipe that it closes is to be closed.
    sys::close_input_and_output();
    let mut status = [1];
    socket.read_exact(&mut status)?;
    Ok(status[0])
}
