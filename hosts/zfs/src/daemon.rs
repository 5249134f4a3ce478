//! The daemon: a thread for each pool, and one for each client.

use crate::call::Call;
use crate::failure::Failure;
use crate::output::Channel;
use crate::protocol::{self, Program, Request, Status};
use crate::sys;
use crate::world::World;
use crate::{zfs, zpool};
use std::fs::{File, OpenOptions};
use std::io::{self, Write};
use std::os::unix::fs::{DirBuilderExt, PermissionsExt};
use std::os::unix::net::{UnixListener, UnixStream};
use std::path::Path;
use std::process::ExitCode;
use std::sync::Arc;
use std::{env, fs, thread};

const USAGE: &str = "usage: yuzd [--log FILE]
Keeps pools in memory and answers zfs and zpool, in the foreground. Its socket stands in the folder YUZFRONT_DIR, else in `yuzfront` in
XDG_RUNTIME_DIR, else in `yuzfront-UID` in the folder for temporary files (TMPDIR). The pools end with it. FILE gets a line a command: its
status, the program, the arguments and the first line of its errors, with tabs between them.";

/// What `--version` says, and what it has to.
pub const NOTE: &str = "None of this program is proved: it is a host of the library, which is.";

pub fn run() -> ExitCode {
    let words: Vec<String> = env::args().skip(1).collect();
    let log = match words.iter().map(String::as_str).collect::<Vec<_>>()[..] {
        [] => Ok(None),
        ["--log", file] => OpenOptions::new().create(true).append(true).open(file).map(|file| Some(Arc::new(file))),
        ["--version"] => {
            println!("yuzd {}\n{NOTE}", env!("CARGO_PKG_VERSION"));
            return ExitCode::SUCCESS;
        }
        _ => {
            eprintln!("{USAGE}");
            return ExitCode::from(2);
        }
    };
    let served = log.and_then(|log| listen().map(|listener| serve(&listener, &Arc::default(), &log)));
    match served {
        Ok(()) => ExitCode::SUCCESS,
        Err(error) => {
            eprintln!("yuzd: {}: {error}", protocol::socket().display());
            ExitCode::FAILURE
        }
    }
}

/// The socket, in a folder that is the user's own.
fn listen() -> io::Result<UnixListener> {
    let (folder, socket) = (protocol::folder(), protocol::socket());
    fs::DirBuilder::new().recursive(true).mode(0o700).create(&folder)?;
    protocol::check_folder(&folder)?;
    if UnixStream::connect(&socket).is_ok() {
        return Err(io::Error::new(io::ErrorKind::AddrInUse, "a daemon is there already"));
    }
    remove(&socket)?;
    let listener = sys::privately(|| UnixListener::bind(&socket))?;
    fs::set_permissions(&socket, fs::Permissions::from_mode(0o600))?;
    Ok(listener)
}

fn remove(socket: &Path) -> io::Result<()> {
    match fs::remove_file(socket) {
        Err(error) if error.kind() != io::ErrorKind::NotFound => Err(error),
        _ => Ok(()),
    }
}

/// Answers clients until the process ends.
fn serve(listener: &UnixListener, world: &Arc<World>, log: &Option<Arc<File>>) {
    for socket in listener.incoming() {
        let (world, log) = (Arc::clone(world), log.clone());
        let started = match socket {
            Ok(socket) => thread::Builder::new().spawn(move || answer(socket, world, log.as_deref())).map(drop),
            Err(error) => Err(error),
        };
        if started.is_err() {
            // Too many clients at once: those that are there have to end first.
            thread::sleep(std::time::Duration::from_millis(10));
        }
    }
}

/// Answers one client. What is no request ends that client alone.
fn answer(socket: UnixStream, world: Arc<World>, log: Option<&File>) {
    let Ok((request, descriptors)) = Request::receive(&socket) else { return };
    let mut call = Call::new(request, world, descriptors, socket);
    let status = run_call(&mut call);
    if let Some(log) = log {
        write_log(log, &call, status);
    }
    call.flush();
    // The descriptors are closed before the client hears that it is done.
    let mut socket = call.into_socket();
    let _ = socket.write_all(&[status.code()]);
}

/// Writes a line of the log in one write, so that lines of two clients don't mix.
fn write_log(mut log: &File, call: &Call, status: Status) {
    let error = call.output.pieces.iter().find(|(channel, _)| *channel == Channel::Error).and_then(|(_, text)| text.lines().next());
    let words = call.request.arguments.join(" ").replace(['\n', '\t'], " ");
    let line = format!("{}\t{}\t{words}\t{}\n", status.code(), call.request.program, error.unwrap_or(""));
    let _ = log.write_all(line.as_bytes());
}

fn run_call(call: &mut Call) -> Status {
    let outcome = match call.request.program {
        Program::Zfs => zfs::run(call),
        Program::Zpool => zpool::run(call),
    };
    if call.request.makes_folders {
        make_folders(&call.world);
    }
    match outcome {
        Ok(()) => call.status,
        Err(failure) => {
            tell(call, &failure);
            failure.status()
        }
    }
}

/// Makes the folders in which something is mounted, as a mount does. One that can't be made is left out.
fn make_folders(world: &World) {
    for pool in world.pools() {
        let mounted = pool.run(|host| host.mounted()).unwrap_or_default();
        mounted.iter().for_each(|(_, place)| drop(fs::create_dir_all(place)));
    }
}

fn tell(call: &mut Call, failure: &Failure) {
    call.output.error_text(&failure.to_string());
}
