//! The requests that change or tell of datasets, each a call of its own.

use crate::{sys, Error, Pool, Property};

/// A limit of a file system (zfsprops(7)).
#[derive(Clone, Copy, PartialEq, Eq, Debug)]
#[repr(u32)]
pub enum Limit {
    Quota = 0,
    RefQuota = 1,
    Reservation = 2,
    RefReservation = 3,
}

/// What [`Pool::pool_get`] tells: sizes in bytes, and the open group, a number.
#[derive(Clone, Copy, PartialEq, Eq, Debug)]
#[repr(u32)]
pub enum PoolProperty {
    Size = 0,
    Allocated = 1,
    Free = 2,
    Freeing = 3,
    Waiting = 4,
    Group = 5,
}

/// The mode of a receive ([`Pool::receive`], docs/RECEIVE.md).
#[derive(Clone, Copy, PartialEq, Eq, Debug)]
pub enum Receiving<'a> {
    /// A full stream makes a new file system. An incremental one goes into a file system that hasn't changed since its newest snapshot.
    Plain,
    /// The file system is rolled back to its newest snapshot first.
    Back,
    /// The file system is rolled back to the stream's source. Its newer snapshots and bookmarks are destroyed.
    Past,
    /// An incremental stream from the snapshot of this name makes a new file system, which is a clone of it.
    Origin(&'a str),
    /// A full stream takes the place of a file system that is there. Its contents, snapshots and bookmarks are destroyed.
    Replace,
}

impl<'a> Receiving<'a> {
    pub(crate) fn number(self) -> u32 {
        match self {
            Receiving::Plain => 0,
            Receiving::Back => 1,
            Receiving::Past => 2,
            Receiving::Origin(_) => 3,
            Receiving::Replace => 4,
        }
    }

    pub(crate) fn origin(self) -> &'a str {
        match self {
            Receiving::Origin(name) => name,
            _ => "",
        }
    }
}

/// `true` is [`Receiving::Back`], and `false` is [`Receiving::Plain`].
impl From<bool> for Receiving<'_> {
    fn from(force: bool) -> Self {
        if force {
            Receiving::Back
        } else {
            Receiving::Plain
        }
    }
}

/// What a name of a list is of.
#[derive(Clone, Copy, PartialEq, Eq, Debug)]
pub enum Kind {
    FileSystem,
    Snapshot,
    Bookmark,
}

impl Kind {
    /// The kind of a name, by its `@` or `#`.
    pub fn of(name: &str) -> Kind {
        match name.find(['@', '#']).map(|at| name.as_bytes()[at]) {
            Some(b'@') => Kind::Snapshot,
            Some(_) => Kind::Bookmark,
            None => Kind::FileSystem,
        }
    }
}

/// A dataset or bookmark of [`Pool::entries`]: sizes in bytes. What its kind hasn't is none.
#[derive(Clone, PartialEq, Eq, Debug)]
pub struct Entry {
    pub name: String,
    pub kind: Kind,
    pub guid: Option<u64>,
    pub group: Option<u64>,
    pub used: Option<u64>,
    pub referenced: Option<u64>,
}

/// A name has at most 255 bytes.
const NAME_SIZE: usize = 255;

// SAFETY, for each call here: the lengths are those of the texts.
impl Pool {
    /// Makes an empty file system, as `p/a`.
    pub fn create_file_system(&mut self, name: &str) -> Result<(), Error> {
        Error::check(unsafe { sys::yuzgont_create_file_system(self.handle(), name.as_ptr(), name.len()) })
    }

    /// Makes a file system with the blocks of a snapshot, which is its origin from then on.
    pub fn clone_snapshot(&mut self, snapshot: &str, name: &str) -> Result<(), Error> {
        Error::check(unsafe { sys::yuzgont_clone(self.handle(), snapshot.as_ptr(), snapshot.len(), name.as_ptr(), name.len()) })
    }

    /// Lets a file system, a snapshot or a bookmark go: with `recursive` also what is below, with `defer` once nothing needs it.
    pub fn destroy(&mut self, name: &str, recursive: bool, defer: bool) -> Result<(), Error> {
        Error::check(unsafe { sys::yuzgont_destroy(self.handle(), name.as_ptr(), name.len(), recursive, defer) })
    }

    /// Lets snapshots go, all or none of them: with `recursive` also those of their names below, with `defer` once nothing needs them. Names that no
    /// snapshot has are passed over; `NoDataset` where none has one. `BadName` where the list is empty.
    pub fn destroy_snapshots(&mut self, names: &[&str], recursive: bool, defer: bool) -> Result<(), Error> {
        // A name with a space would be two.
        if names.iter().any(|name| name.contains(' ')) {
            return Err(Error::BadName);
        }
        let names = names.join(" ");
        Error::check(unsafe { sys::yuzgont_destroy_snapshots(self.handle(), names.as_ptr(), names.len(), recursive, defer) })
    }

    /// Gives a clone its origin, with all older snapshots.
    pub fn promote(&mut self, name: &str) -> Result<(), Error> {
        Error::check(unsafe { sys::yuzgont_promote(self.handle(), name.as_ptr(), name.len()) })
    }

    /// Renames a file system, and with it all below it; their snapshots and bookmarks go with them. The file system above the new name must be
    /// there. `BadName` for a new name below the old one, and where a whole name would have more than 255 bytes.
    pub fn rename(&mut self, name: &str, to: &str) -> Result<(), Error> {
        Error::check(unsafe { sys::yuzgont_rename(self.handle(), name.as_ptr(), name.len(), to.as_ptr(), to.len()) })
    }

    /// Renames a snapshot within its file system: `name` is its whole name, and `to` the new part after the `@`. With `recursive` the snapshots of
    /// its name in all file systems below are renamed too; one that has none stays as it is. `Exists` where one of these file systems has a snapshot
    /// of the new name, and `Busy` while a view of one that would be renamed is open.
    pub fn rename_snapshot(&mut self, name: &str, to: &str, recursive: bool) -> Result<(), Error> {
        Error::check(unsafe { sys::yuzgont_rename_snapshot(self.handle(), name.as_ptr(), name.len(), to.as_ptr(), to.len(), recursive) })
    }

    /// Makes a file system as its snapshot is; with `later` newer snapshots and bookmarks go.
    pub fn rollback(&mut self, snapshot: &str, later: bool) -> Result<(), Error> {
        Error::check(unsafe { sys::yuzgont_rollback(self.handle(), snapshot.as_ptr(), snapshot.len(), later) })
    }

    /// Keeps a snapshot's guid and group under a bookmark's name.
    pub fn bookmark(&mut self, snapshot: &str, mark: &str) -> Result<(), Error> {
        Error::check(unsafe { sys::yuzgont_bookmark(self.handle(), snapshot.as_ptr(), snapshot.len(), mark.as_ptr(), mark.len()) })
    }

    /// Gives a snapshot a tag, which keeps it from being destroyed.
    pub fn hold(&mut self, tag: &str, snapshot: &str) -> Result<(), Error> {
        Error::check(unsafe { sys::yuzgont_hold(self.handle(), tag.as_ptr(), tag.len(), snapshot.as_ptr(), snapshot.len()) })
    }

    /// Takes a tag from a snapshot.
    pub fn release(&mut self, tag: &str, snapshot: &str) -> Result<(), Error> {
        Error::check(unsafe { sys::yuzgont_release(self.handle(), tag.as_ptr(), tag.len(), snapshot.as_ptr(), snapshot.len()) })
    }

    /// Sets a limit to an amount in bytes, a multiple of 512 up to 2^49, or lets it go where that is 0. [`Error::BadAmount`] for another amount.
    pub fn set(&mut self, name: &str, limit: Limit, amount: u64) -> Result<(), Error> {
        Error::check(unsafe { sys::yuzgont_set(self.handle(), name.as_ptr(), name.len(), limit as u32, amount) })
    }

    /// Makes each block of an object a hole.
    pub fn free_object(&mut self, name: &str, object: u32) -> Result<(), Error> {
        Error::check(unsafe { sys::yuzgont_free_object(self.handle(), name.as_ptr(), name.len(), object) })
    }

    /// Opens a view of a snapshot, which keeps it until the view is closed: the view's number.
    pub fn open_view(&mut self, snapshot: &str) -> Result<u64, Error> {
        let mut view = 0;
        Error::check(unsafe { sys::yuzgont_open_view(self.handle(), snapshot.as_ptr(), snapshot.len(), &mut view) })?;
        Ok(view)
    }

    /// Closes a view.
    pub fn close_view(&mut self, view: u64) -> Result<(), Error> {
        Error::check(unsafe { sys::yuzgont_close_view(self.handle(), view) })
    }

    /// How many bytes of blocks a dataset has that an older snapshot of its lineage hasn't.
    pub fn written_since(&mut self, name: &str, since: &str) -> Result<u64, Error> {
        let mut value = 0;
        Error::check(unsafe {
            sys::yuzgont_written_since(self.handle(), name.as_ptr(), name.len(), since.as_ptr(), since.len(), &mut value)
        })?;
        Ok(value)
    }

    /// How many bytes of blocks would be freed with a file system's snapshots from one to another, each named by what stands after its `@`.
    pub fn would_free(&mut self, name: &str, first: &str, last: &str) -> Result<u64, Error> {
        let mut value = 0;
        Error::check(unsafe {
            sys::yuzgont_would_free(
                self.handle(),
                name.as_ptr(),
                name.len(),
                first.as_ptr(),
                first.len(),
                last.as_ptr(),
                last.len(),
                &mut value,
            )
        })?;
        Ok(value)
    }

    /// A property of the pool.
    pub fn pool_get(&mut self, property: PoolProperty) -> Result<u64, Error> {
        let mut value = 0;
        Error::check(unsafe { sys::yuzgont_pool_get(self.handle(), property as u32, &mut value) })?;
        Ok(value)
    }

    /// The names of all file systems in byte order, each with its snapshots, oldest first, and then its bookmarks.
    pub fn list(&mut self) -> Result<Vec<String>, Error> {
        let mut count = 0;
        Error::check(unsafe { sys::yuzgont_list(self.handle(), &mut count) })?;
        (0..count).map(|index| self.name(index)).collect()
    }

    /// The tags of a snapshot in the order in which they were made.
    pub fn holds(&mut self, snapshot: &str) -> Result<Vec<String>, Error> {
        let mut count = 0;
        Error::check(unsafe { sys::yuzgont_holds(self.handle(), snapshot.as_ptr(), snapshot.len(), &mut count) })?;
        (0..count).map(|index| self.name(index)).collect()
    }

    /// All file systems, snapshots and bookmarks, in the order of [`Pool::list`].
    pub fn entries(&mut self) -> Result<Vec<Entry>, Error> {
        self.list()?.into_iter().map(|name| self.entry(name)).collect()
    }

    fn entry(&mut self, name: String) -> Result<Entry, Error> {
        let kind = Kind::of(&name);
        let [guid, group, used, referenced] =
            [Property::Guid, Property::CreateTxg, Property::Used, Property::Referenced].map(|property| match self.get(&name, property) {
                Ok(value) => Ok(Some(value)),
                Err(Error::NotApplicable) => Ok(None),
                Err(error) => Err(error),
            });
        Ok(Entry { kind, guid: guid?, group: group?, used: used?, referenced: referenced?, name })
    }

    /// A name of the last list.
    fn name(&mut self, index: usize) -> Result<String, Error> {
        let (mut buffer, mut size) = ([0; NAME_SIZE], 0);
        Error::check(unsafe { sys::yuzgont_name(self.handle(), index, buffer.as_mut_ptr(), buffer.len(), &mut size) })?;
        Ok(String::from_utf8_lossy(&buffer[..size]).into_owned())
    }
}
