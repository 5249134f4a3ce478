//! Why a command wasn't done, in the words of libzfs.

use crate::layer::Refusal;
use crate::property::Native;
use crate::protocol::Status;
use crate::usage::Usage;
use std::fmt;

/// What couldn't be done: what stands before the colon of a message.
#[derive(Clone, Debug, PartialEq, Eq)]
pub enum Action {
    Open(String),
    Create(String),
    CreateSnapshot(String),
    CreateSnapshots,
    CreateBookmark(String),
    Verify(String),
    Destroy(String),
    DestroySnapshot(String),
    DestroySnapshots,
    Rollback(String),
    Promote(String),
    Rename(String),
    RenameTo(String),
    Hold(String),
    Release(String),
    SetProperty(String),
    Inherit(String),
    Mount(String),
    Unmount(String),
    WarnSend(String),
    ResumeSend,
    Receive,
    ReceiveNew,
    ReceiveIncremental,
    ReceiveResume,
    Restore(String),
    Import(String),
}

impl fmt::Display for Action {
    fn fmt(&self, f: &mut fmt::Formatter<'_>) -> fmt::Result {
        match self {
            Action::Open(name) => write!(f, "cannot open '{name}'"),
            Action::Create(name) => write!(f, "cannot create '{name}'"),
            Action::CreateSnapshot(name) => write!(f, "cannot create snapshot '{name}'"),
            Action::CreateSnapshots => write!(f, "cannot create snapshots "),
            Action::CreateBookmark(name) => write!(f, "cannot create bookmark '{name}'"),
            Action::Verify(name) => write!(f, "cannot verify '{name}'"),
            Action::Destroy(name) => write!(f, "cannot destroy '{name}'"),
            Action::DestroySnapshot(name) => write!(f, "cannot destroy snapshot {name}"),
            Action::DestroySnapshots => write!(f, "cannot destroy snapshots"),
            Action::Rollback(name) => write!(f, "cannot rollback '{name}'"),
            Action::Promote(name) => write!(f, "cannot promote '{name}'"),
            Action::Rename(name) => write!(f, "cannot rename '{name}'"),
            Action::RenameTo(name) => write!(f, "cannot rename to '{name}'"),
            Action::Hold(name) => write!(f, "cannot hold snapshot '{name}'"),
            Action::Release(name) => write!(f, "cannot release hold from snapshot '{name}'"),
            Action::SetProperty(name) => write!(f, "cannot set property for '{name}'"),
            Action::Inherit(name) => write!(f, "cannot inherit {name}"),
            Action::Mount(name) => write!(f, "cannot mount '{name}'"),
            Action::Unmount(name) => write!(f, "cannot unmount '{name}'"),
            Action::WarnSend(name) => write!(f, "warning: cannot send '{name}'"),
            Action::ResumeSend => write!(f, "cannot resume send"),
            Action::Receive => write!(f, "cannot receive"),
            Action::ReceiveNew => write!(f, "cannot receive new filesystem stream"),
            Action::ReceiveIncremental => write!(f, "cannot receive incremental stream"),
            Action::ReceiveResume => write!(f, "cannot receive resume stream"),
            Action::Restore(name) => write!(f, "cannot restore to {name}"),
            Action::Import(name) => write!(f, "cannot import '{name}'"),
        }
    }
}

/// Why: what stands after the colon.
#[derive(Clone, Debug, PartialEq, Eq)]
pub enum Reason {
    NoDataset,
    NoPool(String),
    Exists,
    NoParent,
    ParentIsVolume,
    Busy,
    NoSpace,
    WrongKind,
    /// A property that datasets of this kind haven't.
    NotOfKind(String),
    ReadOnly(String),
    NoProperty(String),
    NotOneOf(Native),
    /// Only user properties are set on snapshots.
    FixedForSnapshots,
    SnapshotNotExpected,
    SnapshotExpected,
    BookmarkNotExpected,
    BookmarkExpected,
    BadCharacter(char),
    PercentInName,
    EmptyComponent,
    LeadingSlash,
    TrailingSlash,
    ManyDelimiters,
    SelfReference,
    ParentReference,
    NameTooLong,
    TooManyBelow,
    NotClone,
    NotAncestor,
    OtherPool,
    SnapshotIsCloned,
    TagExists,
    NoTag,
    TagTooLong,
    TooBigLimit,
    LimitBelowUse,
    BadStream,
    NoMemory,
    NoEncryption,
    /// What a dry word list doesn't have.
    Text(String),
}

impl Reason {
    /// Those that are always the same.
    fn fixed(&self) -> Option<&'static str> {
        Some(match self {
            Reason::NoDataset => "dataset does not exist",
            Reason::Exists => "dataset already exists",
            Reason::NoParent => "parent does not exist",
            Reason::ParentIsVolume => "parent is not a filesystem",
            Reason::Busy => "dataset is busy",
            Reason::NoSpace => "out of space",
            Reason::WrongKind => "operation not applicable to datasets of this type",
            Reason::FixedForSnapshots => "this property can not be modified for snapshots",
            Reason::SnapshotNotExpected => "snapshot delimiter '@' is not expected here",
            Reason::SnapshotExpected => "missing '@' delimiter in snapshot name",
            Reason::BookmarkNotExpected => "bookmark delimiter '#' is not expected here",
            Reason::BookmarkExpected => "missing '#' delimiter in bookmark name",
            Reason::PercentInName => "invalid character % in name",
            Reason::EmptyComponent => "empty component or misplaced '@' or '#' delimiter in name",
            Reason::LeadingSlash => "leading slash in name",
            Reason::TrailingSlash => "trailing slash in name",
            Reason::ManyDelimiters => "multiple '@' and/or '#' delimiters in name",
            Reason::SelfReference => "self reference, '.' is found in name",
            Reason::ParentReference => "parent reference, '..' is found in name",
            Reason::NameTooLong => "name is too long",
            Reason::TooManyBelow => "dataset name is too long",
            Reason::NotClone => "not a cloned filesystem",
            Reason::NotAncestor => "not an earlier snapshot from the same fs",
            Reason::OtherPool => "source and target pools differ",
            Reason::SnapshotIsCloned => "snapshot is cloned",
            Reason::TagExists => "tag already exists on this dataset",
            Reason::NoTag => "no such tag on this dataset",
            Reason::TagTooLong => "tag too long",
            Reason::TooBigLimit => "size is greater than available space",
            Reason::LimitBelowUse => "size is less than current used or reserved space",
            Reason::BadStream => "invalid stream (checksum mismatch)",
            Reason::NoMemory => "out of memory",
            Reason::NoEncryption => "Encryption feature not enabled.",
            _ => return None,
        })
    }
}

impl fmt::Display for Reason {
    fn fmt(&self, f: &mut fmt::Formatter<'_>) -> fmt::Result {
        match self {
            Reason::NoPool(pool) => write!(f, "no such pool '{pool}'"),
            Reason::NotOfKind(property) => write!(f, "'{property}' does not apply to datasets of this type"),
            Reason::ReadOnly(property) => write!(f, "'{property}' is readonly"),
            Reason::NoProperty(property) => write!(f, "invalid property '{property}'"),
            Reason::NotOneOf(property) => write!(f, "'{property}' must be one of '{}'", property.values()),
            Reason::BadCharacter(character) => write!(f, "invalid character '{character}' in name"),
            Reason::Text(text) => f.write_str(text),
            other => f.write_str(other.fixed().unwrap_or_default()),
        }
    }
}

/// What a refusal of the layer is called, where a command has no words of its own for it.
impl From<Refusal> for Reason {
    fn from(refusal: Refusal) -> Reason {
        match refusal {
            Refusal::NoDataset => Reason::NoDataset,
            Refusal::Exists => Reason::Exists,
            Refusal::NoParent => Reason::NoParent,
            Refusal::Busy | Refusal::Deferred => Reason::Busy,
            Refusal::HasClones => Reason::SnapshotIsCloned,
            Refusal::NotClone => Reason::NotClone,
            Refusal::NotAncestor => Reason::NotAncestor,
            Refusal::Quota | Refusal::RefQuota | Refusal::NoSpace | Refusal::TooMany => Reason::NoSpace,
            Refusal::TagExists => Reason::TagExists,
            Refusal::NoTag => Reason::NoTag,
            Refusal::NotSnapshot => Reason::WrongKind,
            Refusal::BadName => Reason::TooManyBelow,
            Refusal::BadStream => Reason::BadStream,
            Refusal::NoMemory => Reason::NoMemory,
            other => Reason::Text(format!("the layer answers {other}")),
        }
    }
}

/// Why a command wasn't done.
#[derive(Clone, Debug, PartialEq, Eq)]
pub enum Failure {
    Cannot(Action, Reason),
    /// A bad command line: what is wrong, and the command whose usage is told.
    Usage(Usage, String),
    /// What is wrong with each of several datasets. Nothing was done with any.
    Several(Vec<Failure>),
    /// A message of another form.
    Told(String),
    /// A message of another form, with a status of its own.
    ToldWith(Status, String),
    /// All that there is to say was said.
    Silent,
}

impl Failure {
    pub fn status(&self) -> Status {
        match self {
            Failure::Usage(..) => Status::BadUsage,
            Failure::ToldWith(status, _) => *status,
            // What OpenZFS ends with there, as it hands on a -1.
            Failure::Cannot(Action::ResumeSend, _) => Status::Other(255),
            _ => Status::Failed,
        }
    }

    /// The dataset isn't there.
    pub fn no_dataset(name: &str) -> Failure {
        Failure::Cannot(Action::Open(name.to_owned()), Reason::NoDataset)
    }
}

impl fmt::Display for Failure {
    fn fmt(&self, f: &mut fmt::Formatter<'_>) -> fmt::Result {
        match self {
            Failure::Cannot(action, reason) => writeln!(f, "{action}: {reason}"),
            Failure::Usage(usage, reason) if reason.is_empty() => write!(f, "{usage}"),
            Failure::Usage(usage, reason) => write!(f, "{reason}\n{usage}"),
            Failure::Several(failures) => failures.iter().try_for_each(|failure| failure.fmt(f)),
            Failure::Told(text) | Failure::ToldWith(_, text) => writeln!(f, "{text}"),
            Failure::Silent => Ok(()),
        }
    }
}

impl std::error::Error for Failure {}

pub type Outcome<T = ()> = Result<T, Failure>;

/// Puts what was tried before a reason.
pub trait Trying<T> {
    fn trying(self, action: impl FnOnce() -> Action) -> Outcome<T>;
}

impl<T, E: Into<Reason>> Trying<T> for Result<T, E> {
    fn trying(self, action: impl FnOnce() -> Action) -> Outcome<T> {
        self.map_err(|reason| Failure::Cannot(action(), reason.into()))
    }
}
