//! Yuzgont's pools for Rust, over the static library `yuzgont_c`.
//!
//! A [`Pool`] owns a pool and frees it when it is dropped. Its calls take `&mut self`, so the compiler orders them. What isn't `Ok` has
//! changed nothing. A send is read as a [`Stream`], which is [`Read`]; a receive is written as a [`Receiver`], which is [`Write`], and made
//! by [`Receiver::finish`].
//!
//! A pool's id must never be used twice. It is in the guid of each snapshot, so a second pool of one id gives the guids of the first to other
//! contents. A backup then applies an increment to the wrong snapshot, and no refusal tells this. [`Pool::new`] draws an id at random.

mod error;
mod requests;
mod sys;

pub use error::Error;
pub use requests::{Entry, Kind, Limit, PoolProperty, Receiving};

use std::collections::hash_map::RandomState;
use std::hash::{BuildHasher, Hasher};
use std::io::{self, Read, Write};

/// The bytes of a block.
pub type Block = [u8; 512];

/// What [`Pool::get`] tells: sizes in bytes, and from `Guid` on numbers.
#[derive(Clone, Copy, PartialEq, Eq, Debug)]
#[repr(u32)]
pub enum Property {
    Used = 0,
    Available = 1,
    Referenced = 2,
    Written = 3,
    UsedByDataset = 4,
    UsedBySnapshots = 5,
    UsedByChildren = 6,
    UsedByRefReservation = 7,
    Quota = 8,
    RefQuota = 9,
    Reservation = 10,
    RefReservation = 11,
    Guid = 12,
    CreateTxg = 13,
    UserRefs = 14,
}

/// A line's reply, and whether it is a refusal.
#[derive(Clone, PartialEq, Eq, Debug)]
pub struct Reply {
    pub text: Vec<u8>,
    pub is_refused: bool,
}

/// No reply of a line that changes a pool is longer: such a reply is a word, a refusal or a number.
const SHORT_REPLY: usize = 64;

/// An id for a pool, drawn at random from 1 to 4,294,967,295: a hash by the keys that the standard library draws for its maps.
pub fn random_id() -> u32 {
    loop {
        let id = RandomState::new().build_hasher().finish() as u32;
        if id != 0 {
            return id;
        }
    }
}

/// A pool. It may go from one thread to another, and be shared under a lock.
#[derive(Debug)]
pub struct Pool {
    handle: sys::Handle,
    id: u32,
}

// SAFETY: nothing of a pool belongs to a thread. The library has no static variable that changes and none of a thread, starts no thread and keeps
// no pointer of its caller's; `malloc` and `free` take memory from any thread. The pool of Rattle is what a session of its own keeps under a lock
// for all of its threads, for which Rattle asks a proof that a pool may go to another thread; the rest of a handle is the bytes of a reply and a
// stream. No two pools share memory. Calls take `&mut self`, so they come one after another, and what hands a pool on orders memory too.
unsafe impl Send for Pool {}

impl Pool {
    /// A pool with an id drawn at random, and 1 to 4,194,304 blocks. TooMany for another number of blocks.
    pub fn new(blocks: u32) -> Result<Pool, Error> {
        Pool::create(random_id(), blocks)
    }

    /// A pool with an id, not 0 and of no pool before it, and 1 to 4,194,304 blocks. BadName for id 0, else TooMany for another number of blocks.
    pub fn create(id: u32, blocks: u32) -> Result<Pool, Error> {
        let mut pool = Pool { handle: sys::Handle::NONE, id };
        // SAFETY: the handle has no pool.
        Error::check(unsafe { sys::yuzgont_create(&mut pool.handle, id, blocks) })?;
        Ok(pool)
    }

    /// Its id.
    pub fn id(&self) -> u32 {
        self.id
    }

    /// Answers a line, without its line feed (docs/COMMANDS.md). Room for the reply is taken before the line is asked, or, where it is longer than
    /// those of lines that change something, after it: where there is none, that is NoMemory, and nothing has changed.
    pub fn line(&mut self, line: &str) -> Result<Reply, Error> {
        let (mut refusal, mut size, mut count) = (0, 0, 0);
        let mut text = Vec::new();
        text.try_reserve_exact(SHORT_REPLY).map_err(|_| Error::NoMemory)?;
        // SAFETY: the lengths are those of the slices, here and below.
        Error::check(unsafe { sys::yuzgont_line(&mut self.handle, line.as_ptr(), line.len(), &mut refusal, &mut size) })?;
        text.try_reserve_exact(size).map_err(|_| Error::NoMemory)?;
        text.resize(size, 0);
        Error::check(unsafe { sys::yuzgont_reply(&mut self.handle, 0, text.as_mut_ptr(), size, &mut count) })?;
        Ok(Reply { text, is_refused: refusal != 0 })
    }

    /// Writes block `block`, 0 to 4095, of object `object`, 0 to 255, of a file system.
    pub fn write(&mut self, name: &str, object: u32, block: u32, bytes: &Block) -> Result<(), Error> {
        Error::check(unsafe { sys::yuzgont_write(&mut self.handle, name.as_ptr(), name.len(), object, block, bytes.as_ptr(), bytes.len()) })
    }

    /// Reads a block; none for a hole.
    pub fn read(&mut self, name: &str, object: u32, block: u32) -> Result<Option<Block>, Error> {
        let (mut bytes, mut is_hole) = ([0; 512], false);
        Error::check(unsafe {
            sys::yuzgont_read(&mut self.handle, name.as_ptr(), name.len(), object, block, bytes.as_mut_ptr(), bytes.len(), &mut is_hole)
        })?;
        Ok((!is_hole).then_some(bytes))
    }

    /// Makes a block a hole.
    pub fn punch(&mut self, name: &str, object: u32, block: u32) -> Result<(), Error> {
        Error::check(unsafe { sys::yuzgont_punch(&mut self.handle, name.as_ptr(), name.len(), object, block) })
    }

    /// Makes a snapshot, as `p/a@s`, and with `recursive` one of the same component of each file system below.
    pub fn snapshot(&mut self, name: &str, recursive: bool) -> Result<(), Error> {
        Error::check(unsafe { sys::yuzgont_snapshot(&mut self.handle, name.as_ptr(), name.len(), recursive) })
    }

    /// A property of a dataset; [`Error::NotApplicable`] where it hasn't it.
    pub fn get(&mut self, name: &str, property: Property) -> Result<u64, Error> {
        let mut value = 0;
        Error::check(unsafe { sys::yuzgont_get(&mut self.handle, name.as_ptr(), name.len(), property as u32, &mut value) })?;
        Ok(value)
    }

    /// Syncs: the open group.
    pub fn sync(&mut self) -> Result<u64, Error> {
        let mut group = 0;
        Error::check(unsafe { sys::yuzgont_sync(&mut self.handle, &mut group) })?;
        Ok(group)
    }

    /// Frees so many blocks of what was destroyed, or all where they are fewer: how many.
    pub fn slice(&mut self, count: u64) -> Result<u64, Error> {
        let mut taken = 0;
        Error::check(unsafe { sys::yuzgont_slice(&mut self.handle, count, &mut taken) })?;
        Ok(taken)
    }

    /// Goes back to the last sync.
    pub fn abandon(&mut self) -> Result<(), Error> {
        Error::check(unsafe { sys::yuzgont_abandon(&mut self.handle) })
    }

    /// The stream of a snapshot, in full or from a source, which is a snapshot or a bookmark.
    pub fn send(&mut self, name: &str, from: Option<&str>) -> Result<Stream<'_>, Error> {
        let (from, mut size) = (from.unwrap_or(""), 0);
        Error::check(unsafe { sys::yuzgont_send(&mut self.handle, name.as_ptr(), name.len(), from.as_ptr(), from.len(), &mut size) })?;
        Ok(Stream { pool: self, at: 0, size })
    }

    /// Receives what will be written, as a snapshot of this name, in a mode; `true` stands for [`Receiving::Back`], and `false` for
    /// [`Receiving::Plain`].
    pub fn receive<'a>(&'a mut self, name: &'a str, mode: impl Into<Receiving<'a>>) -> Receiver<'a> {
        Receiver { pool: self, name, mode: mode.into(), bytes: Vec::new() }
    }
}

impl Pool {
    fn handle(&mut self) -> *mut sys::Handle {
        &mut self.handle
    }
}

impl Drop for Pool {
    fn drop(&mut self) {
        // SAFETY: the handle isn't used again.
        unsafe { sys::yuzgont_free(&mut self.handle) }
    }
}

/// The stream of a send, which the pool keeps until this is dropped.
#[derive(Debug)]
pub struct Stream<'a> {
    pool: &'a mut Pool,
    at: usize,
    size: usize,
}

impl Stream<'_> {
    /// How many bytes it has in all.
    pub fn size(&self) -> usize {
        self.size
    }
}

impl Read for Stream<'_> {
    fn read(&mut self, buffer: &mut [u8]) -> io::Result<usize> {
        let mut count = 0;
        let handle = &mut self.pool.handle;
        Error::check(unsafe { sys::yuzgont_stream(handle, self.at, buffer.as_mut_ptr(), buffer.len(), &mut count) })?;
        self.at += count;
        Ok(count)
    }
}

impl Drop for Stream<'_> {
    fn drop(&mut self) {
        // It can't fail: the handle has a pool.
        let _code = unsafe { sys::yuzgont_forget(&mut self.pool.handle) };
    }
}

/// The bytes of a receive. Nothing is received but by `finish`.
#[derive(Debug)]
pub struct Receiver<'a> {
    pool: &'a mut Pool,
    name: &'a str,
    mode: Receiving<'a>,
    bytes: Vec<u8>,
}

impl Receiver<'_> {
    /// Receives what was written: [`Error::BadStream`] where that isn't one whole stream, or not one for the mode.
    pub fn finish(self) -> Result<(), Error> {
        let (name, bytes, origin) = (self.name, &self.bytes, self.mode.origin());
        let mode = self.mode.number();
        Error::check(unsafe {
            sys::yuzgont_receive(
                &mut self.pool.handle,
                name.as_ptr(),
                name.len(),
                bytes.as_ptr(),
                bytes.len(),
                mode,
                origin.as_ptr(),
                origin.len(),
            )
        })
    }
}

impl Write for Receiver<'_> {
    fn write(&mut self, bytes: &[u8]) -> io::Result<usize> {
        self.bytes.try_reserve(bytes.len()).map_err(|_| io::ErrorKind::OutOfMemory)?;
        self.bytes.extend_from_slice(bytes);
        Ok(bytes.len())
    }

    fn flush(&mut self) -> io::Result<()> {
        Ok(())
    }
}
