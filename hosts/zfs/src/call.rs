//! A command that a client has asked: what it came with, and what it prints.

use crate::failure::{Action, Failure, Outcome, Reason, Trying};
use crate::host::Host;
use crate::name;
use crate::options::{Long, Options};
use crate::output::{Channel, Output};
use crate::protocol::{Request, Status};
use crate::sys::{self, PollEntry};
use crate::usage::Usage;
use crate::world::{PoolThread, World};
use std::fs::File;
use std::io::{self, Read, Write};
use std::os::fd::{AsFd, OwnedFd};
use std::os::unix::net::UnixStream;
use std::sync::Arc;
use std::time::Duration;

pub struct Call {
    pub request: Request,
    pub world: Arc<World>,
    pub output: Output,
    /// What the command ends with, where nothing else is wrong with it.
    pub status: Status,
    files: [File; sys::DESCRIPTORS],
    socket: UnixStream,
}

/// The most bytes of one write: a pipe takes so many at once.
const PIECE: usize = 1 << 16;

impl Call {
    pub fn new(request: Request, world: Arc<World>, descriptors: [OwnedFd; sys::DESCRIPTORS], socket: UnixStream) -> Call {
        let files = descriptors.map(File::from);
        Call { request, world, output: Output::default(), status: Status::Done, files, socket }
    }

    pub fn clock(&self) -> i64 {
        self.request.clock
    }

    /// The socket, for the status.
    pub fn into_socket(self) -> UnixStream {
        self.socket
    }

    /// Reads a command's options.
    pub fn options(&self, words: &[String], letters: &str, usage: Usage) -> Outcome<Options> {
        self.long_options(words, letters, &[], usage)
    }

    pub fn long_options(&self, words: &[String], letters: &str, long: &[Long], usage: Usage) -> Outcome<Options> {
        let options = Options::read(words, letters, long, self.request.is_posix);
        options.check(letters, usage)?;
        Ok(options)
    }

    /// Tells what went wrong with a part of the command, and goes on with the rest.
    pub fn note(&mut self, failure: &Failure) {
        self.output.error_text(&failure.to_string());
        self.status = failure.status();
    }

    /// The pool of a dataset, or that the dataset isn't there.
    pub fn pool_of(&self, dataset: &str) -> Outcome<Arc<PoolThread>> {
        self.world.pool_of(dataset).ok_or_else(|| Failure::no_dataset(dataset))
    }

    /// A pool by its own name, for zpool(8).
    pub fn pool(&self, name: &str) -> Outcome<Arc<PoolThread>> {
        name::check_pool(name).trying(|| Action::Open(name.to_owned()))?;
        self.world.pool_of(name).ok_or_else(|| Failure::Cannot(Action::Open(name.to_owned()), Reason::Text("no such pool".into())))
    }

    /// Runs a change of a pool: all of it, or nothing.
    pub fn change<T: Send + 'static>(
        &self,
        pool: &PoolThread,
        run: impl FnOnce(&mut Host) -> Outcome<T> + Send + 'static,
    ) -> Outcome<T> {
        pool.run(|host| host.change(run))?
    }

    /// Writes a line into a pool's history.
    pub fn log(&self, pool: &PoolThread) {
        let words = format!("{} {}", self.request.program, self.request.arguments.join(" "));
        let clock = self.clock();
        // A history that can't be written is no reason to fail.
        let _ = pool.run(move |host| host.log(clock, &words));
    }

    /// Prints what was said so far. A client that reads no more is no reason to fail.
    pub fn flush(&mut self) {
        for (channel, text) in std::mem::take(&mut self.output).pieces {
            let file = &mut self.files[if channel == Channel::Output { 1 } else { 2 }];
            let _ = file.write_all(text.as_bytes());
        }
    }

    pub fn is_input_terminal(&self) -> bool {
        io::IsTerminal::is_terminal(&self.files[0])
    }

    pub fn is_output_terminal(&self) -> bool {
        io::IsTerminal::is_terminal(&self.files[1])
    }

    /// Waits so long. Whether the client is still there then.
    pub fn pause(&self, time: Duration) -> bool {
        let mut entries = [PollEntry::readable(self.socket.as_fd())];
        sys::wait(&mut entries, Some(time)).is_ok() && !self.is_gone(entries[0])
    }

    /// Whether the client is gone. It never sends more than its request.
    fn is_gone(&self, entry: PollEntry) -> bool {
        entry.is_ready()
    }
}

/// Standard input, which ends where the client is gone.
impl Read for Call {
    fn read(&mut self, buffer: &mut [u8]) -> io::Result<usize> {
        let mut entries = [PollEntry::readable(self.files[0].as_fd()), PollEntry::readable(self.socket.as_fd())];
        sys::wait(&mut entries, None)?;
        if self.is_gone(entries[1]) && !entries[0].is_ready() {
            return Ok(0);
        }
        self.files[0].read(buffer)
    }
}

/// Standard output, as it comes. It fails where the client is gone.
impl Write for Call {
    fn write(&mut self, bytes: &[u8]) -> io::Result<usize> {
        let mut entries = [PollEntry::writable(self.files[1].as_fd()), PollEntry::readable(self.socket.as_fd())];
        sys::wait(&mut entries, None)?;
        if self.is_gone(entries[1]) {
            return Err(io::ErrorKind::BrokenPipe.into());
        }
        self.files[1].write(&bytes[..bytes.len().min(PIECE)])
    }

    fn flush(&mut self) -> io::Result<()> {
        Ok(())
    }
}
