//! The layer: a pool of the library, asked by lines and calls, with its refusals by name.

use std::fmt;
use std::io::{self, Read, Write};
use yuzgont::{Error, Pool, Property, Receiving};

macro_rules! refusals {
    ($($name:ident $number:literal;)*) => {
        /// A refusal of the layer (docs/REFUSALS.md). Nothing has changed.
        #[derive(Clone, Copy, Debug, PartialEq, Eq)]
        pub enum Refusal {
            $($name),*,
            /// An answer that no call of this host should get, by its number.
            Unexpected(i32),
        }

        impl Refusal {
            fn numbered(number: i32) -> Refusal {
                match number {
                    $($number => Refusal::$name,)*
                    other => Refusal::Unexpected(other),
                }
            }
        }
    };
}

refusals! {
    BadName 1;
    NoDataset 2;
    Exists 3;
    NoParent 4;
    BadKey 5;
    ReadOnly 6;
    NotSnapshot 7;
    Busy 8;
    HasClones 9;
    HasChildren 10;
    NotNewest 11;
    NotClone 12;
    NameClash 13;
    TagExists 14;
    NoTag 15;
    Deferred 16;
    NotAncestor 17;
    Quota 18;
    RefQuota 19;
    NoSpace 20;
    TooMany 21;
    BadStream 22;
    WrongSource 23;
    Modified 24;
    NoMemory 25;
    IsRoot 27;
    BadLine 28;
}

impl fmt::Display for Refusal {
    fn fmt(&self, f: &mut fmt::Formatter<'_>) -> fmt::Result {
        write!(f, "{self:?}")
    }
}

impl From<Error> for Refusal {
    fn from(error: Error) -> Refusal {
        Refusal::numbered(error.code())
    }
}

/// The most bytes that are taken of a stream before it is known to be whole.
const STREAM_LIMIT: u64 = 8 << 30;

/// A pool of the layer. Its root file system is `p`.
pub struct Layer {
    pool: Pool,
}

impl Layer {
    pub fn create(id: u32, blocks: u32) -> Result<Layer, Refusal> {
        Ok(Layer { pool: Pool::create(id, blocks)? })
    }

    /// Asks a line (docs/COMMANDS.md): its reply, without the line feed.
    pub fn ask(&mut self, line: &str) -> Result<String, Refusal> {
        let reply = self.pool.line(line)?;
        let mut text = String::from_utf8(reply.text).map_err(|_| Refusal::Unexpected(0))?;
        if text.ends_with('\n') {
            text.pop();
        }
        if reply.is_refused {
            let number = text.split(' ').nth(1).and_then(|word| word.parse().ok());
            return Err(Refusal::numbered(number.unwrap_or(0)));
        }
        Ok(text)
    }

    /// Asks a line that answers `ok`.
    pub fn order(&mut self, line: &str) -> Result<(), Refusal> {
        self.ask(line).map(drop)
    }

    /// Asks a line that answers a number.
    pub fn number(&mut self, line: &str) -> Result<u64, Refusal> {
        self.ask(line)?.parse().map_err(|_| Refusal::Unexpected(0))
    }

    /// Destroys snapshots in one request, all or none of them. Those that are gone are passed over; NoDataset where all are.
    pub fn destroy_snapshots(&mut self, names: &[&str], is_deferred: bool) -> Result<(), Refusal> {
        Ok(self.pool.destroy_snapshots(names, false, is_deferred)?)
    }

    /// Gives a file system another name, and so all below it.
    pub fn rename(&mut self, name: &str, to: &str) -> Result<(), Refusal> {
        Ok(self.pool.rename(name, to)?)
    }

    /// Gives a snapshot another name within its file system, and with `is_recursive` those of its name in all file systems below: all or none.
    pub fn rename_snapshot(&mut self, name: &str, to: &str, is_recursive: bool) -> Result<(), Refusal> {
        Ok(self.pool.rename_snapshot(name, to, is_recursive)?)
    }

    /// A property that is a number.
    pub fn get(&mut self, name: &str, property: Property) -> Result<u64, Refusal> {
        Ok(self.pool.get(name, property)?)
    }

    pub fn sync(&mut self) -> Result<u64, Refusal> {
        Ok(self.pool.sync()?)
    }

    /// Frees all that waits to be freed.
    pub fn free_all(&mut self) -> Result<(), Refusal> {
        while self.pool.slice(u64::from(u32::MAX))? > 0 {}
        Ok(())
    }

    pub fn abandon(&mut self) -> Result<(), Refusal> {
        Ok(self.pool.abandon()?)
    }

    /// Writes a block: 1 to 512 bytes, and zeros after them.
    pub fn write(&mut self, name: &str, object: u32, block: u32, bytes: &[u8]) -> Result<(), Refusal> {
        let mut whole = [0; 512];
        whole.get_mut(..bytes.len()).ok_or(Refusal::BadLine)?.copy_from_slice(bytes);
        Ok(self.pool.write(name, object, block, &whole)?)
    }

    /// A block, or none where there is a hole.
    pub fn read(&mut self, name: &str, object: u32, block: u32) -> Result<Option<yuzgont::Block>, Refusal> {
        Ok(self.pool.read(name, object, block)?)
    }

    /// How many bytes a stream has.
    pub fn stream_size(&mut self, name: &str, from: Option<&str>) -> Result<u64, Refusal> {
        Ok(self.pool.send(name, from)?.size() as u64)
    }

    /// A stream, from a byte on.
    pub fn stream(&mut self, name: &str, from: Option<&str>, at: u64) -> Result<Vec<u8>, Refusal> {
        let mut stream = self.pool.send(name, from)?;
        let size = stream.size();
        io::copy(&mut (&mut stream).take(at), &mut io::sink()).map_err(|_| Refusal::Unexpected(0))?;
        let mut bytes = Vec::new();
        bytes.try_reserve_exact(size.saturating_sub(at as usize)).map_err(|_| Refusal::NoMemory)?;
        (&mut stream).take(STREAM_LIMIT).read_to_end(&mut bytes).map_err(|_| Refusal::NoMemory)?;
        Ok(bytes)
    }

    /// Receives a whole stream as a snapshot, in a mode.
    pub fn receive(&mut self, name: &str, mode: Receiving<'_>, bytes: &[u8]) -> Result<(), Refusal> {
        let mut receiver = self.pool.receive(name, mode);
        receiver.write_all(bytes).map_err(|_| Refusal::NoMemory)?;
        Ok(receiver.finish()?)
    }
}
