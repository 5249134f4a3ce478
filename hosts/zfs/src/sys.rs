//! The C library's functions that the standard library has no calls for: descriptors over a Unix socket, polls, local time.
//!
//! The layouts are those of Linux on 64 bits.

use std::ffi::{c_char, c_int, c_long, c_short, c_ulong, c_void};
use std::fmt;
use std::io;
use std::mem::{size_of, zeroed, MaybeUninit};
use std::os::fd::{AsRawFd, BorrowedFd, FromRawFd, OwnedFd, RawFd};
use std::os::unix::net::UnixStream;
use std::time::Duration;

#[repr(C)]
struct IoVec {
    base: *mut c_void,
    length: usize,
}

#[repr(C)]
struct MessageHeader {
    name: *mut c_void,
    name_length: u32,
    vector: *mut IoVec,
    vector_length: usize,
    control: *mut c_void,
    control_length: usize,
    flags: c_int,
}

/// A control message with room for descriptors: a client sends three, and no more are taken.
#[repr(C, align(8))]
#[derive(Clone, Copy)]
struct Control {
    length: usize,
    level: c_int,
    kind: c_int,
    descriptors: [RawFd; DESCRIPTORS],
}

/// A descriptor to wait for.
#[repr(C)]
#[derive(Clone, Copy)]
pub struct PollEntry {
    descriptor: RawFd,
    events: c_short,
    found: c_short,
}

#[repr(C)]
struct BrokenTime {
    second: c_int,
    minute: c_int,
    hour: c_int,
    day: c_int,
    month: c_int,
    year: c_int,
    week_day: c_int,
    year_day: c_int,
    is_summer: c_int,
    offset: c_long,
    zone: *const c_char,
}

extern "C" {
    fn sendmsg(socket: c_int, message: *const MessageHeader, flags: c_int) -> isize;
    fn recvmsg(socket: c_int, message: *mut MessageHeader, flags: c_int) -> isize;
    fn poll(entries: *mut PollEntry, count: c_ulong, timeout: c_int) -> c_int;
    fn localtime_r(time: *const i64, broken: *mut BrokenTime) -> *mut BrokenTime;
    fn geteuid() -> u32;
    fn umask(mask: u32) -> u32;
    fn close(descriptor: c_int) -> c_int;
}

/// How many descriptors a client sends: its standard input, output and error.
pub const DESCRIPTORS: usize = 3;

/// The bytes of a control message before its descriptors, and with them. There is room for no more, so none comes that nobody closes.
const CONTROL_HEAD: usize = size_of::<usize>() + 2 * size_of::<c_int>();
const CONTROL_LENGTH: usize = CONTROL_HEAD + size_of::<[RawFd; DESCRIPTORS]>();

const SOL_SOCKET: c_int = 1;
const SCM_RIGHTS: c_int = 1;
const MSG_NOSIGNAL: c_int = 0x4000;
const MSG_CMSG_CLOEXEC: c_int = 0x4000_0000;
const MSG_CTRUNC: c_int = 8;
const POLLIN: c_short = 1;
const POLLOUT: c_short = 4;

/// Sends bytes, and the descriptors with the first of them: how many bytes went.
pub fn send_descriptors(socket: &UnixStream, bytes: &[u8], descriptors: [RawFd; DESCRIPTORS]) -> io::Result<usize> {
    let mut control = Control { length: CONTROL_LENGTH, level: SOL_SOCKET, kind: SCM_RIGHTS, descriptors };
    let mut vector = IoVec { base: bytes.as_ptr().cast_mut().cast(), length: bytes.len() };
    let message = header(&mut vector, &mut control);
    // SAFETY: the header points to values that live until the call is over; sendmsg only reads the bytes.
    let count = unsafe { sendmsg(socket.as_raw_fd(), &message, MSG_NOSIGNAL) };
    usize::try_from(count).map_err(|_| io::Error::last_os_error())
}

/// Receives bytes, and the descriptors that came with them, which are closed when they are dropped.
pub fn receive_descriptors(socket: &UnixStream, bytes: &mut [u8]) -> io::Result<(usize, Vec<OwnedFd>)> {
    let mut control = Control { length: 0, level: 0, kind: 0, descriptors: [-1; DESCRIPTORS] };
    let mut vector = IoVec { base: bytes.as_mut_ptr().cast(), length: bytes.len() };
    let mut message = header(&mut vector, &mut control);
    // SAFETY: as above; the kernel writes at most the lengths that the header tells.
    let count = unsafe { recvmsg(socket.as_raw_fd(), &mut message, MSG_CMSG_CLOEXEC) };
    let count = usize::try_from(count).map_err(|_| io::Error::last_os_error())?;
    let came = message.control_length >= CONTROL_HEAD && control.level == SOL_SOCKET && control.kind == SCM_RIGHTS;
    let number = if came { control.length.saturating_sub(CONTROL_HEAD) / size_of::<RawFd>() } else { 0 };
    // SAFETY: the kernel has opened these for this process, and nobody else has them.
    let owned = control.descriptors[..number.min(DESCRIPTORS)].iter().map(|&it| unsafe { OwnedFd::from_raw_fd(it) }).collect();
    if message.flags & MSG_CTRUNC != 0 {
        return Err(io::Error::from(io::ErrorKind::InvalidData));
    }
    Ok((count, owned))
}

fn header(vector: &mut IoVec, control: &mut Control) -> MessageHeader {
    // SAFETY: zeros are a message header: null pointers and lengths of 0.
    let mut message: MessageHeader = unsafe { zeroed() };
    message.vector = vector;
    message.vector_length = 1;
    message.control = (control as *mut Control).cast();
    message.control_length = CONTROL_LENGTH;
    message
}

impl PollEntry {
    pub fn readable(descriptor: BorrowedFd<'_>) -> PollEntry {
        PollEntry { descriptor: descriptor.as_raw_fd(), events: POLLIN, found: 0 }
    }

    pub fn writable(descriptor: BorrowedFd<'_>) -> PollEntry {
        PollEntry { descriptor: descriptor.as_raw_fd(), events: POLLOUT, found: 0 }
    }

    /// Whether something was found: what was waited for, an end or an error.
    pub fn is_ready(&self) -> bool {
        self.found != 0
    }
}

/// Waits until something is found of one of them, or so long.
pub fn wait(entries: &mut [PollEntry], limit: Option<Duration>) -> io::Result<()> {
    let limit = limit.map_or(-1, |limit| c_int::try_from(limit.as_millis()).unwrap_or(c_int::MAX));
    loop {
        // SAFETY: the count is that of the slice.
        if unsafe { poll(entries.as_mut_ptr(), entries.len() as c_ulong, limit) } >= 0 {
            return Ok(());
        }
        let error = io::Error::last_os_error();
        if error.kind() != io::ErrorKind::Interrupted {
            return Err(error);
        }
    }
}

/// A time of the clock, in the daemon's time zone.
#[derive(Clone, Copy, Debug, PartialEq, Eq)]
pub struct LocalTime {
    pub year: i32,
    pub month: usize,
    pub week_day: usize,
    pub day: i32,
    pub hour: i32,
    pub minute: i32,
    pub second: i32,
}

/// As the history has it: `2027-05-01.12:30:00`.
impl fmt::Display for LocalTime {
    fn fmt(&self, f: &mut fmt::Formatter<'_>) -> fmt::Result {
        write!(f, "{:04}-{:02}-{:02}.{:02}:{:02}:{:02}", self.year, self.month + 1, self.day, self.hour, self.minute, self.second)
    }
}

/// Seconds since 1970 as a local time; none where it has no year of 32 bits.
pub fn local_time(seconds: i64) -> Option<LocalTime> {
    let mut broken = MaybeUninit::<BrokenTime>::uninit();
    // SAFETY: the function writes all of the value where it doesn't answer null.
    let broken = unsafe {
        if localtime_r(&seconds, broken.as_mut_ptr()).is_null() {
            return None;
        }
        broken.assume_init()
    };
    Some(LocalTime {
        year: broken.year + 1900,
        month: broken.month as usize,
        week_day: broken.week_day as usize,
        day: broken.day,
        hour: broken.hour,
        minute: broken.minute,
        second: broken.second,
    })
}

/// The user that this process runs as.
pub fn user() -> u32 {
    // SAFETY: it takes nothing and can't fail.
    unsafe { geteuid() }
}

/// Runs something while new files are the user's alone. No other thread may make files meanwhile.
pub fn privately<T>(run: impl FnOnce() -> T) -> T {
    // SAFETY: the call changes the mask of the process alone, and can't fail.
    let before = unsafe { umask(0o077) };
    let value = run();
    unsafe { umask(before) };
    value
}

/// Closes standard input and output, which a client has handed on. Nothing of this process may use them after it.
pub fn close_input_and_output() {
    for descriptor in [0, 1] {
        // SAFETY: the standard library tells no error of a closed standard descriptor, and no other value owns them.
        unsafe { close(descriptor) };
    }
}

#[cfg(test)]
mod tests {
    use super::*;
    use std::fs::File;
    use std::io::{pipe, Read, Write};
    use std::os::fd::AsFd;

    #[test]
    fn descriptors_go_over_a_socket() {
        let (ours, theirs) = UnixStream::pair().unwrap();
        let (mut reader, writer) = pipe().unwrap();
        let null = File::open("/dev/null").unwrap();
        let descriptors = [null.as_raw_fd(), writer.as_raw_fd(), null.as_raw_fd()];
        assert_eq!(send_descriptors(&ours, b"four", descriptors).unwrap(), 4);
        drop(writer);
        let mut bytes = [0; 16];
        let (count, mut came) = receive_descriptors(&theirs, &mut bytes).unwrap();
        assert_eq!((&bytes[..count], came.len()), (&b"four"[..], 3));
        File::from(came.swap_remove(1)).write_all(b"through").unwrap();
        let mut text = String::new();
        reader.read_to_string(&mut text).unwrap();
        assert_eq!(text, "through");
    }

    #[test]
    fn bytes_may_come_without_descriptors() {
        let (mut ours, theirs) = UnixStream::pair().unwrap();
        ours.write_all(b"plain").unwrap();
        let mut bytes = [0; 16];
        let (count, came) = receive_descriptors(&theirs, &mut bytes).unwrap();
        assert_eq!((count, came.len()), (5, 0));
    }

    #[test]
    fn a_wait_ends_where_one_side_is_gone() {
        let (ours, theirs) = UnixStream::pair().unwrap();
        drop(theirs);
        let mut entries = [PollEntry::readable(ours.as_fd())];
        wait(&mut entries, None).unwrap();
        assert!(entries[0].is_ready());
    }
}
