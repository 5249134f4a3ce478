//! What a client and the daemon say to each other: one request, with the client's descriptors 0 to 2, and one status.
//!
//! A request is a length (32 bits, little endian) and so many bytes: words, each with a zero after it. The first is `VERSION`; the client's
//! clock, its working folder, the program's name, the variables of `VARIABLES`, empty where they aren't set, and the arguments follow. The
//! answer is one byte, the status.

use crate::sys;
use std::io::{self, Read, Write};
use std::os::fd::{OwnedFd, RawFd};
use std::os::unix::fs::MetadataExt;
use std::os::unix::net::UnixStream;
use std::path::{Path, PathBuf};
use std::time::{Duration, SystemTime, UNIX_EPOCH};
use std::{env, fmt, fs};

/// The first word of each request.
const VERSION: &str = "yuzfront-2";

/// The most bytes of a request: more than Linux gives to a program's arguments.
pub const REQUEST_LIMIT: usize = 4 << 20;

/// The variables of a client's environment that count: options end at the first operand, a pool to which `mount -a` is limited, and folders are made
/// where something is mounted.
const VARIABLES: [&str; 3] = ["POSIXLY_CORRECT", "__ZFS_POOL_RESTRICT", "YUZFRONT_FOLDERS"];

/// How long a client may take to send its request.
const PATIENCE: Duration = Duration::from_secs(20);

/// What a client asks.
#[derive(Clone, Debug, PartialEq, Eq)]
pub struct Request {
    /// Seconds since 1970, by the client's clock.
    pub clock: i64,
    pub folder: String,
    pub program: Program,
    /// Whether options end at the first operand.
    pub is_posix: bool,
    /// The one pool that `mount -a` and `unmount -a` go through, where it is set.
    pub restricted_to: Option<String>,
    /// Whether each folder in which something is mounted is made after the command.
    pub makes_folders: bool,
    pub arguments: Vec<String>,
}

/// The program that a client is called as.
#[derive(Clone, Copy, Debug, PartialEq, Eq)]
pub enum Program {
    Zfs,
    Zpool,
}

impl Program {
    /// By the name that it is called by, with or without a folder: whatever isn't `zpool` is `zfs`.
    pub fn named(name: &str) -> Program {
        match name.rsplit('/').next() {
            Some("zpool") => Program::Zpool,
            _ => Program::Zfs,
        }
    }
}

impl fmt::Display for Program {
    fn fmt(&self, f: &mut fmt::Formatter<'_>) -> fmt::Result {
        f.write_str(match self {
            Program::Zfs => "zfs",
            Program::Zpool => "zpool",
        })
    }
}

/// What a program ends with.
#[derive(Clone, Copy, Debug, PartialEq, Eq)]
pub enum Status {
    Done,
    Failed,
    BadUsage,
    /// One of `zpool` and `zfs` that says something else than these.
    Other(u8),
}

impl Status {
    pub fn code(self) -> u8 {
        match self {
            Status::Done => 0,
            Status::Failed => 1,
            Status::BadUsage => 2,
            Status::Other(code) => code,
        }
    }
}

fn invalid(what: &str) -> io::Error {
    io::Error::new(io::ErrorKind::InvalidData, what)
}

impl Request {
    fn encoded(&self) -> Vec<u8> {
        let (clock, program) = (self.clock.to_string(), self.program.to_string());
        let set = |is_set: bool| if is_set { "1" } else { "" };
        let restricted_to = self.restricted_to.as_deref().unwrap_or("");
        let head = [VERSION, &clock, &self.folder, &program, set(self.is_posix), restricted_to, set(self.makes_folders)];
        let words = head.into_iter().chain(self.arguments.iter().map(String::as_str));
        words.flat_map(|word| word.bytes().filter(|&byte| byte != 0).chain([0])).collect()
    }

    fn decoded(bytes: &[u8]) -> io::Result<Request> {
        let text = String::from_utf8_lossy(bytes);
        let mut words = text.strip_suffix('\0').ok_or_else(|| invalid("a word without an end"))?.split('\0');
        if words.next() != Some(VERSION) {
            return Err(invalid("another version"));
        }
        let clock = words.next().and_then(|word| word.parse().ok()).ok_or_else(|| invalid("no clock"))?;
        let folder = words.next().ok_or_else(|| invalid("no folder"))?.to_owned();
        let program = match words.next() {
            Some("zfs") => Program::Zfs,
            Some("zpool") => Program::Zpool,
            _ => return Err(invalid("no program")),
        };
        let mut variable = || words.next().ok_or_else(|| invalid("no variables"));
        let is_posix = !variable()?.is_empty();
        let restricted_to = Some(variable()?.to_owned()).filter(|pool| !pool.is_empty());
        let makes_folders = !variable()?.is_empty();
        Ok(Request { clock, folder, program, is_posix, restricted_to, makes_folders, arguments: words.map(str::to_owned).collect() })
    }

    /// What this process would ask as a client.
    pub fn of_process() -> Request {
        let mut words = env::args_os().map(|word| word.to_string_lossy().into_owned());
        let program = Program::named(&words.next().unwrap_or_default());
        let [is_posix, restricted_to, makes_folders] = VARIABLES.map(env::var_os);
        Request {
            clock: SystemTime::now().duration_since(UNIX_EPOCH).map_or(0, |since| since.as_secs() as i64),
            folder: env::current_dir().map_or_else(|_| String::from("/"), |folder| folder.to_string_lossy().into_owned()),
            program,
            is_posix: is_posix.is_some(),
            restricted_to: restricted_to.map(|pool| pool.to_string_lossy().into_owned()),
            makes_folders: makes_folders.is_some_and(|value| !value.is_empty()),
            arguments: words.collect(),
        }
    }

    /// Sends it, with the descriptors.
    pub fn send(&self, mut socket: &UnixStream, descriptors: [RawFd; sys::DESCRIPTORS]) -> io::Result<()> {
        let bytes = self.encoded();
        if bytes.len() > REQUEST_LIMIT {
            return Err(io::Error::from_raw_os_error(7)); // E2BIG
        }
        let length = (bytes.len() as u32).to_le_bytes();
        let count = sys::send_descriptors(socket, &length, descriptors)?;
        socket.write_all(&length[count..])?;
        socket.write_all(&bytes)
    }

    /// Receives one, with the descriptors: an error where what came is no request.
    pub fn receive(mut socket: &UnixStream) -> io::Result<(Request, [OwnedFd; sys::DESCRIPTORS])> {
        socket.set_read_timeout(Some(PATIENCE))?;
        let mut length = [0; 4];
        let (count, descriptors) = sys::receive_descriptors(socket, &mut length)?;
        let descriptors = <[OwnedFd; sys::DESCRIPTORS]>::try_from(descriptors).map_err(|_| invalid("not three descriptors"))?;
        socket.read_exact(&mut length[count..])?;
        let length = u32::from_le_bytes(length);
        if length as usize > REQUEST_LIMIT {
            return Err(invalid("too long a request"));
        }
        let mut bytes = Vec::new();
        if socket.take(u64::from(length)).read_to_end(&mut bytes)? != length as usize {
            return Err(invalid("a request that was cut"));
        }
        socket.set_read_timeout(None)?;
        Ok((Request::decoded(&bytes)?, descriptors))
    }
}

/// The folder of the socket: YUZFRONT_DIR, else `yuzfront` in XDG_RUNTIME_DIR, else `yuzfront-UID` in the folder
/// for temporary files (TMPDIR), with the user's number.
pub fn folder() -> PathBuf {
    let set = |name| env::var_os(name).filter(|value| !value.is_empty()).map(PathBuf::from);
    set("YUZFRONT_DIR")
        .or_else(|| set("XDG_RUNTIME_DIR").map(|folder| folder.join("yuzfront")))
        .unwrap_or_else(|| env::temp_dir().join(format!("yuzfront-{}", sys::user())))
}

/// The folder has to be the user's, and nobody else may write to it: who has the socket gets the descriptors of clients.
pub fn check_folder(folder: &Path) -> io::Result<()> {
    let facts = fs::metadata(folder)?;
    let refused = |what: &str| Err(io::Error::new(io::ErrorKind::PermissionDenied, what));
    if facts.uid() != sys::user() {
        return refused("the folder is another user's");
    }
    if facts.mode() & 0o022 != 0 {
        return refused("others may write to the folder");
    }
    Ok(())
}

/// Where the daemon listens.
pub fn socket() -> PathBuf {
    folder().join("socket")
}

#[cfg(test)]
mod tests {
    use super::*;
    use std::fs::File;
    use std::os::fd::AsRawFd;
    use std::os::unix::fs::PermissionsExt;

    fn request() -> Request {
        let arguments = ["list", "", "tank/a b"].map(String::from).to_vec();
        let restricted_to = Some("tank".into());
        let (folder, program) = ("/home/x".into(), Program::Zpool);
        Request { clock: 1_800_000_000, folder, program, is_posix: true, restricted_to, makes_folders: true, arguments }
    }

    #[test]
    fn a_request_comes_as_it_was_sent() {
        let (ours, theirs) = UnixStream::pair().unwrap();
        let null = File::open("/dev/null").unwrap();
        request().send(&ours, [null.as_raw_fd(); 3]).unwrap();
        assert_eq!(Request::receive(&theirs).unwrap().0, request());
    }

    #[test]
    fn what_is_no_request_is_an_error() {
        let whole = request().encoded();
        assert_eq!(Request::decoded(&whole).unwrap(), request());
        assert!(Request::decoded(&whole[..whole.len() - 1]).is_err());
        assert!(Request::decoded(b"").is_err());
        assert!(Request::decoded(b"yuzfront-0\x001\0/\0zfs\0").is_err());
        assert!(Request::decoded(b"yuzfront-2\0soon\0/\0zfs\0").is_err());
        assert!(Request::decoded(b"yuzfront-2\x001\0/\0cat\0").is_err());
        assert!(Request::decoded(b"yuzfront-2\x001\0/\0zfs\0\0\0").is_err());
        assert!(Request::decoded(b"yuzfront-2\x001\0/\0zfs\0\0\0\0").unwrap().arguments.is_empty());
    }

    #[test]
    fn a_length_past_the_limit_is_refused() {
        let (ours, theirs) = UnixStream::pair().unwrap();
        let null = File::open("/dev/null").unwrap();
        sys::send_descriptors(&ours, &u32::MAX.to_le_bytes(), [null.as_raw_fd(); 3]).unwrap();
        assert_eq!(Request::receive(&theirs).unwrap_err().kind(), io::ErrorKind::InvalidData);
    }

    #[test]
    fn a_folder_that_others_may_write_to_is_refused() {
        let folder = env::temp_dir().join(format!("yuzfront-test-{}", std::process::id()));
        fs::create_dir(&folder).unwrap();
        let mode = |mode| fs::set_permissions(&folder, fs::Permissions::from_mode(mode)).unwrap();
        mode(0o700);
        assert!(check_folder(&folder).is_ok());
        for of_others in [0o777, 0o702, 0o720] {
            mode(of_others);
            assert_eq!(check_folder(&folder).unwrap_err().kind(), io::ErrorKind::PermissionDenied);
        }
        fs::remove_dir(&folder).unwrap();
        assert!(check_folder(&folder).is_err());
    }

    #[test]
    fn the_program_is_the_last_part_of_a_path() {
        assert_eq!(Program::named("/usr/sbin/zpool"), Program::Zpool);
        assert_eq!(Program::named("zfs"), Program::Zfs);
        assert_eq!(Program::named("/opt/zpool/zfs"), Program::Zfs);
    }
}
