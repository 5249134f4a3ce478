//! A daemon of a test's own, and its programs.
#![allow(dead_code)] // each test uses a part

use std::ffi::OsStr;
use std::fs::{self, File};
use std::io::{self, Read};
use std::os::fd::{AsRawFd, RawFd};
use std::os::unix::net::UnixStream;
use std::os::unix::process::{CommandExt, ExitStatusExt};
use std::path::{Path, PathBuf};
use std::process::{Child, Command, Output, Stdio};
use std::sync::atomic::{AtomicU32, Ordering};
use std::time::{Duration, Instant};
use std::{env, process, thread};

/// A daemon in a folder of its own. Both go at the end.
pub struct World {
    pub folder: PathBuf,
    daemon: Child,
}

/// What a program ended with and wrote.
#[derive(Debug, PartialEq, Eq)]
pub struct Said {
    /// The status, or minus the signal that ended it.
    pub status: i32,
    pub out: String,
    pub err: String,
}

impl From<Output> for Said {
    fn from(output: Output) -> Said {
        let text = |bytes: Vec<u8>| String::from_utf8(bytes).expect("text");
        let status = output.status.code().unwrap_or_else(|| -output.status.signal().unwrap_or(0));
        Said { status, out: text(output.stdout), err: text(output.stderr) }
    }
}

impl World {
    pub fn new() -> World {
        static COUNT: AtomicU32 = AtomicU32::new(0);
        let name = format!("yuz-test-{}-{}", process::id(), COUNT.fetch_add(1, Ordering::Relaxed));
        let folder = env::temp_dir().join(name);
        fs::create_dir(&folder).unwrap();
        let daemon = World::start(&folder);
        World { folder, daemon }
    }

    /// With a pool `tank`.
    pub fn with_pool() -> World {
        let world = World::new();
        world.pool("tank");
        world
    }

    fn start(folder: &Path) -> Child {
        let daemon = Command::new(env!("CARGO_BIN_EXE_yuzd")).env("YUZFRONT_DIR", folder).stdin(Stdio::null()).spawn().unwrap();
        let began = Instant::now();
        while UnixStream::connect(folder.join("socket")).is_err() {
            assert!(began.elapsed() < Duration::from_secs(20), "the daemon doesn't listen");
            thread::sleep(Duration::from_millis(5));
        }
        daemon
    }

    /// Ends the daemon as a machine that fails does.
    pub fn kill(&mut self) {
        self.daemon.kill().unwrap();
        self.daemon.wait().unwrap();
    }

    pub fn is_alive(&mut self) -> bool {
        self.daemon.try_wait().unwrap().is_none()
    }

    pub fn socket(&self) -> PathBuf {
        self.folder.join("socket")
    }

    /// A pool of 1 GiB.
    pub fn pool(&self, name: &str) {
        let file = self.folder.join(format!("{name}.img"));
        File::create(&file).unwrap().set_len(1 << 30).unwrap();
        self.done("zpool", ["create", name, file.to_str().unwrap()]);
    }

    pub fn command<S: AsRef<OsStr>>(&self, program: &str, words: impl IntoIterator<Item = S>) -> Command {
        let mut command = Command::new(env!("CARGO_BIN_EXE_zfs"));
        command.arg0(program).args(words).env("YUZFRONT_DIR", &self.folder).env("TZ", "UTC").stdin(Stdio::null());
        command
    }

    pub fn say<S: AsRef<OsStr>>(&self, program: &str, words: impl IntoIterator<Item = S>) -> Said {
        self.command(program, words).output().unwrap().into()
    }

    /// A line as a shell splits it at blanks: `zfs list -H`.
    pub fn line(&self, line: &str) -> Said {
        let (program, words) = line.split_once(' ').unwrap_or((line, ""));
        self.say(program, words.split(' ').filter(|word| !word.is_empty()))
    }

    /// What was done has status 0 and no errors. Its output.
    pub fn done<S: AsRef<OsStr>>(&self, program: &str, words: impl IntoIterator<Item = S>) -> String {
        let words: Vec<_> = words.into_iter().map(|word| word.as_ref().to_owned()).collect();
        let said = self.say(program, &words);
        assert!(said.status == 0 && said.err.is_empty(), "{program} {words:?}: {said:?}");
        said.out
    }

    /// Each line, which has to be done.
    pub fn run(&self, lines: &str) -> String {
        lines.lines().map(str::trim).filter(|line| !line.is_empty()).fold(String::new(), |all, line| {
            let said = self.line(line);
            assert!(said.status == 0 && said.err.is_empty(), "{line}: {said:?}");
            all + &said.out
        })
    }

    /// All that the programs tell of what is there: each property but the free space of datasets, holds, and the first block of each.
    pub fn state(&self) -> String {
        let mut state = self.line("zfs get -Hp -o name,property,value,source all").out;
        for name in self.line("zfs list -H -t all -o name").out.lines() {
            state += &self.line(&format!("zfs yuz-read {name} 0 0")).out;
            if name.contains('@') {
                state += &self.line(&format!("zfs holds -H {name}")).out;
            }
        }
        state + &self.line("zpool get -Hp all").out + &self.line("zfs mount").out
    }

    /// A stream of `zfs send`.
    pub fn stream(&self, words: &[&str]) -> Vec<u8> {
        let sent = self.command("zfs", [&["send"], words].concat()).output().unwrap();
        assert!(sent.status.success(), "{words:?}: {}", String::from_utf8_lossy(&sent.stderr));
        sent.stdout
    }

    /// `zfs receive` of a stream.
    pub fn receive(&self, stream: &[u8], words: &[&str]) -> Said {
        let mut child = self.command("zfs", [&["receive"], words].concat()).stdin(Stdio::piped()).stdout(Stdio::piped()).stderr(Stdio::piped()).spawn().unwrap();
        // A receiver that refuses closes the pipe.
        let _ = io::Write::write_all(&mut child.stdin.take().unwrap(), stream);
        child.wait_with_output().unwrap().into()
    }
}

impl Drop for World {
    fn drop(&mut self) {
        let _ = self.daemon.kill();
        let _ = self.daemon.wait();
        let _ = fs::remove_dir_all(&self.folder);
    }
}

/// The lowest of a few times that something takes: a busy machine only adds.
pub fn least(tries: u32, mut run: impl FnMut()) -> Duration {
    let once = |run: &mut dyn FnMut()| {
        let began = Instant::now();
        run();
        began.elapsed()
    };
    (0..tries).map(|_| once(&mut run)).min().unwrap()
}

/// What a daemon answers to bytes on its socket: nothing where it ends the connection.
pub fn answer(socket: &mut UnixStream) -> Vec<u8> {
    socket.set_read_timeout(Some(Duration::from_secs(30))).unwrap();
    let mut all = Vec::new();
    match socket.read_to_end(&mut all) {
        Err(error) if error.kind() != io::ErrorKind::ConnectionReset => panic!("no end of the connection: {error}"),
        _ => all,
    }
}

#[repr(C)]
struct Part {
    bytes: *const u8,
    length: usize,
}

#[repr(C)]
struct Message {
    name: *const u8,
    name_length: u32,
    parts: *const Part,
    part_count: usize,
    control: *const u8,
    control_length: usize,
    flags: i32,
}

extern "C" {
    fn sendmsg(socket: RawFd, message: *const Message, flags: i32) -> isize;
}

/// Sends bytes with so many descriptors of /dev/null beside (SCM_RIGHTS), as sendmsg(2) says.
pub fn send_with_descriptors(socket: &UnixStream, bytes: &[u8], count: usize) -> io::Result<usize> {
    let null = File::open("/dev/null")?;
    let mut control: Vec<u64> = vec![0; 2 + count.div_ceil(2)];
    control[0] = (16 + 4 * count) as u64; // cmsg_len
    control[1] = 1 | 1 << 32; // SOL_SOCKET, SCM_RIGHTS
    for at in 0..count {
        control[2 + at / 2] |= (null.as_raw_fd() as u64) << (32 * (at % 2));
    }
    let part = Part { bytes: bytes.as_ptr(), length: bytes.len() };
    let control_length = if count == 0 { 0 } else { control.len() * 8 };
    let message = Message { name: std::ptr::null(), name_length: 0, parts: &part, part_count: 1, control: control.as_ptr().cast(), control_length, flags: 0 };
    // SAFETY: each pointer of the message is to memory that stands until the call returns, of the length beside it. 0x4000 is MSG_NOSIGNAL.
    match unsafe { sendmsg(socket.as_raw_fd(), &message, 0x4000) } {
        count if count >= 0 => Ok(count as usize),
        _ => Err(io::Error::last_os_error()),
    }
}
