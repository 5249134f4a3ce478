//! Streams of the host: what `zfs send` writes and `zfs receive` reads.

pub mod check;
pub mod format;
pub mod plan;
pub mod receive;
pub mod respell;
pub mod token;
pub mod younger;

/// What a resumable receive that was cut has left.
#[derive(Clone, Debug, PartialEq, Eq)]
pub struct Partial {
    /// The snapshot that was sent, by the sender's name.
    pub to_name: String,
    pub to_guid: u64,
    /// 0 for a stream in full.
    pub from_guid: u64,
    /// What came of the layer's stream.
    pub bytes: Vec<u8>,
    /// Whether the file system is there for the receive alone.
    pub is_fresh: bool,
}
