//! Why a call wasn't done.

use std::{error, fmt, io};

/// Why a call wasn't done: a refusal (docs/REFUSALS.md), or from `Null` on what the caller did wrong. Nothing has changed.
#[derive(Clone, Copy, PartialEq, Eq, Debug)]
#[repr(i32)]
pub enum Error {
    BadName = 1,
    NoDataset = 2,
    Exists = 3,
    NoParent = 4,
    BadKey = 5,
    ReadOnly = 6,
    NotSnapshot = 7,
    Busy = 8,
    HasClones = 9,
    HasChildren = 10,
    NotNewest = 11,
    NotClone = 12,
    NameClash = 13,
    TagExists = 14,
    NoTag = 15,
    Deferred = 16,
    NotAncestor = 17,
    Quota = 18,
    RefQuota = 19,
    NoSpace = 20,
    TooMany = 21,
    BadStream = 22,
    WrongSource = 23,
    Modified = 24,
    NoMemory = 25,
    NoView = 26,
    IsRoot = 27,
    BadLine = 28,
    SessionFull = 29,
    TooManySeats = 30,
    Null = -1,
    PoolMissing = -2,
    PoolThere = -3,
    BadLength = -4,
    NoProperty = -5,
    NotApplicable = -6,
    BadAmount = -7,
    NoEntry = -8,
}

impl Error {
    const ALL: [Error; 38] = {
        use Error::*;
        [
            BadName, NoDataset, Exists, NoParent, BadKey, ReadOnly, NotSnapshot, Busy, HasClones, HasChildren, NotNewest, NotClone, NameClash,
            TagExists, NoTag, Deferred, NotAncestor, Quota, RefQuota, NoSpace, TooMany, BadStream, WrongSource, Modified, NoMemory, NoView,
            IsRoot, BadLine, SessionFull, TooManySeats, Null, PoolMissing, PoolThere, BadLength, NoProperty, NotApplicable,
            BadAmount, NoEntry,
        ]
    };

    /// Its number, as in C.
    pub fn code(self) -> i32 {
        self as i32
    }

    /// What the answer of a call says.
    pub(crate) fn check(code: i32) -> Result<(), Error> {
        if code == 0 {
            return Ok(());
        }
        Err(Error::ALL.into_iter().find(|error| error.code() == code).expect("an answer of the library"))
    }
}

impl fmt::Display for Error {
    fn fmt(&self, f: &mut fmt::Formatter<'_>) -> fmt::Result {
        write!(f, "{} {self:?}", self.code())
    }
}

impl error::Error for Error {}

impl From<Error> for io::Error {
    fn from(error: Error) -> io::Error {
        let kind = match error {
            Error::NoMemory => io::ErrorKind::OutOfMemory,
            Error::BadStream => io::ErrorKind::InvalidData,
            _ => io::ErrorKind::Other,
        };
        io::Error::new(kind, error)
    }
}
