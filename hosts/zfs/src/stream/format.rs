//! The bytes of a stream: a magic word, then records until an end record.
//!
//! A record is a kind (1 byte), the length of its head (4 bytes), the length of its body (8 bytes), the head, a sum of all these (8 bytes),
//! and the body. Numbers are big-endian. Texts and lists have their length before them. The body of a step is a stream of the layer, which
//! has a sum of its own.

use super::token::sum;
use crate::dataset::{Kind, Values};
use std::io::{self, Read, Write};

/// What a stream begins with.
pub const MAGIC: &[u8; 8] = b"YUZZFS03";

/// The most bytes of a head: some 100,000 names of snapshots.
const HEAD_LIMIT: usize = 64 << 20;

/// The bytes of a record before its head.
const FIXED: usize = 13;

/// How many bytes of a body are read at once.
const PIECE: usize = 1 << 16;

#[derive(Clone, Debug, PartialEq, Eq)]
pub enum Head {
    Begin(Begin),
    Step(Step),
    End,
}

/// What a stream is about.
#[derive(Clone, Debug, Default, PartialEq, Eq)]
pub struct Begin {
    /// The snapshot that was asked for.
    pub to_name: String,
    pub is_replication: bool,
    /// Whether a replication starts from a snapshot that the receiver has.
    pub is_incremental: bool,
    /// Whether OpenZFS would write a stream of streams (DMU_COMPOUNDSTREAM): several snapshots, or what goes with properties or holds.
    pub is_compound: bool,
    /// Of a replication: all file systems, each with its snapshots.
    pub file_systems: Vec<(String, Vec<Listed>)>,
}

/// A snapshot that the sender of a replication has.
#[derive(Clone, Debug, PartialEq, Eq)]
pub struct Listed {
    pub name: String,
    pub guid: u64,
    pub properties: Values,
}

/// One snapshot.
#[derive(Clone, Debug, PartialEq, Eq)]
pub struct Step {
    pub to_name: String,
    pub to_guid: u64,
    /// 0 for a stream in full.
    pub from_guid: u64,
    /// Whether the source is a snapshot of another file system, the origin.
    pub is_clone: bool,
    pub creation: i64,
    pub kind: Kind,
    /// Sizes of a volume.
    pub volume: Values,
    /// Properties of the file system, where they are sent.
    pub properties: Option<Values>,
    pub snapshot_properties: Values,
    pub holds: Vec<String>,
    /// How many bytes of the body a cut receive has already; none where this doesn't resume one.
    pub resumes_at: Option<u64>,
}

/// Why a stream can't be read on.
#[derive(Debug, PartialEq, Eq)]
pub enum Broken {
    /// There was nothing.
    Empty,
    NotStream,
    /// It ended in a record that isn't a step's body.
    Cut,
    /// It ended in the body of a step, of which this came.
    CutBody(Box<Step>, Vec<u8>),
    Damaged,
    NoMemory,
}

#[derive(Default)]
struct Encoder(Vec<u8>);

impl Encoder {
    fn number(&mut self, number: u64) {
        self.0.extend(number.to_be_bytes());
    }

    fn text(&mut self, text: &str) {
        self.number(text.len() as u64);
        self.0.extend(text.as_bytes());
    }

    fn values(&mut self, values: &Values) {
        self.number(values.len() as u64);
        for (name, value) in values {
            self.text(name);
            self.text(value);
        }
    }

    fn begin(&mut self, begin: &Begin) {
        self.text(&begin.to_name);
        self.number(u64::from(begin.is_replication));
        self.number(u64::from(begin.is_incremental));
        self.number(u64::from(begin.is_compound));
        self.number(begin.file_systems.len() as u64);
        for (name, snapshots) in &begin.file_systems {
            self.text(name);
            self.number(snapshots.len() as u64);
            for snapshot in snapshots {
                self.text(&snapshot.name);
                self.number(snapshot.guid);
                self.values(&snapshot.properties);
            }
        }
    }

    fn step(&mut self, step: &Step) {
        self.text(&step.to_name);
        self.number(step.to_guid);
        self.number(step.from_guid);
        self.number(u64::from(step.is_clone));
        self.number(step.creation as u64);
        self.number(u64::from(step.kind == Kind::Volume));
        self.values(&step.volume);
        self.number(u64::from(step.properties.is_some()));
        self.values(step.properties.as_ref().unwrap_or(&Values::new()));
        self.values(&step.snapshot_properties);
        self.number(step.holds.len() as u64);
        step.holds.iter().for_each(|tag| self.text(tag));
        self.number(u64::from(step.resumes_at.is_some()));
        self.number(step.resumes_at.unwrap_or(0));
    }
}

/// Reads a head's values; each is none where the bytes end before it.
struct Decoder<'a>(&'a [u8]);

impl Decoder<'_> {
    fn take(&mut self, count: usize) -> Option<&[u8]> {
        let (taken, rest) = self.0.split_at_checked(count)?;
        self.0 = rest;
        Some(taken)
    }

    fn number(&mut self) -> Option<u64> {
        self.take(8)?.try_into().ok().map(u64::from_be_bytes)
    }

    fn flag(&mut self) -> Option<bool> {
        match self.number()? {
            0 => Some(false),
            1 => Some(true),
            _ => None,
        }
    }

    fn text(&mut self) -> Option<String> {
        let length = usize::try_from(self.number()?).ok()?;
        String::from_utf8(self.take(length)?.to_vec()).ok()
    }

    fn list<T>(&mut self, mut item: impl FnMut(&mut Self) -> Option<T>) -> Option<Vec<T>> {
        let count = self.number()?;
        // Each item has at least a byte, so a count that was made up ends with the bytes.
        (0..count).map(|_| item(self)).collect()
    }

    fn values(&mut self) -> Option<Values> {
        Some(self.list(|it| Some((it.text()?, it.text()?)))?.into_iter().collect())
    }

    fn begin(&mut self) -> Option<Begin> {
        Some(Begin {
            to_name: self.text()?,
            is_replication: self.flag()?,
            is_incremental: self.flag()?,
            is_compound: self.flag()?,
            file_systems: self.list(|it| Some((it.text()?, it.list(Decoder::listed)?)))?,
        })
    }

    fn listed(&mut self) -> Option<Listed> {
        Some(Listed { name: self.text()?, guid: self.number()?, properties: self.values()? })
    }

    fn step(&mut self) -> Option<Step> {
        let (to_name, to_guid, from_guid, is_clone) = (self.text()?, self.number()?, self.number()?, self.flag()?);
        let creation = self.number()? as i64;
        let kind = if self.flag()? { Kind::Volume } else { Kind::FileSystem };
        let volume = self.values()?;
        let has_properties = self.flag()?;
        let properties = Some(self.values()?).filter(|_| has_properties);
        let snapshot_properties = self.values()?;
        let holds = self.list(Decoder::text)?;
        let is_resuming = self.flag()?;
        let resumes_at = Some(self.number()?).filter(|_| is_resuming);
        Some(Step { to_name, to_guid, from_guid, is_clone, creation, kind, volume, properties, snapshot_properties, holds, resumes_at })
    }

    fn head(kind: u8, bytes: &[u8]) -> Option<Head> {
        let mut decoder = Decoder(bytes);
        let head = match kind {
            b'B' => Head::Begin(decoder.begin()?),
            b'S' => Head::Step(decoder.step()?),
            b'E' => Head::End,
            _ => return None,
        };
        decoder.0.is_empty().then_some(head)
    }
}

impl Head {
    /// All of a record but its body.
    pub fn bytes(&self, body: u64) -> Vec<u8> {
        let mut encoder = Encoder::default();
        let kind = match self {
            Head::Begin(begin) => {
                encoder.begin(begin);
                b'B'
            }
            Head::Step(step) => {
                encoder.step(step);
                b'S'
            }
            Head::End => b'E',
        };
        let head = encoder.0;
        let mut bytes = vec![kind];
        bytes.extend((head.len() as u32).to_be_bytes());
        bytes.extend(body.to_be_bytes());
        bytes.extend(head);
        let sum = sum(&bytes);
        bytes.extend(sum.to_be_bytes());
        bytes
    }

    pub fn write(&self, body: u64, to: &mut impl Write) -> io::Result<()> {
        to.write_all(&self.bytes(body))
    }
}

/// Fills the buffer, or says how much of it came.
fn fill(from: &mut impl Read, buffer: &mut [u8]) -> Result<(), usize> {
    let mut at = 0;
    while at < buffer.len() {
        match from.read(&mut buffer[at..]) {
            Ok(0) | Err(_) => return Err(at),
            Ok(count) => at += count,
        }
    }
    Ok(())
}

/// Reads the magic word.
pub fn read_magic(from: &mut impl Read) -> Result<(), Broken> {
    let mut magic = [0; 8];
    match fill(from, &mut magic) {
        Err(0) => Err(Broken::Empty),
        Ok(()) if &magic == MAGIC => Ok(()),
        Err(count) if MAGIC.starts_with(&magic[..count]) => Err(Broken::Cut),
        _ => Err(Broken::NotStream),
    }
}

/// Reads a head, and how many bytes its body has.
pub fn read_head(from: &mut impl Read) -> Result<(Head, u64), Broken> {
    let mut bytes = vec![0; FIXED];
    fill(from, &mut bytes).map_err(|_| Broken::Cut)?;
    let kind = bytes[0];
    let length = u32::from_be_bytes([bytes[1], bytes[2], bytes[3], bytes[4]]) as usize;
    let body = u64::from_be_bytes([bytes[5], bytes[6], bytes[7], bytes[8], bytes[9], bytes[10], bytes[11], bytes[12]]);
    if length > HEAD_LIMIT {
        return Err(Broken::Damaged);
    }
    bytes.try_reserve_exact(length).map_err(|_| Broken::NoMemory)?;
    bytes.resize(FIXED + length, 0);
    fill(from, &mut bytes[FIXED..]).map_err(|_| Broken::Cut)?;
    let mut told = [0; 8];
    fill(from, &mut told).map_err(|_| Broken::Cut)?;
    if u64::from_be_bytes(told) != sum(&bytes) {
        return Err(Broken::Damaged);
    }
    let head = Decoder::head(kind, &bytes[FIXED..]).ok_or(Broken::Damaged)?;
    Ok((head, body))
}

/// Reads a step's body. What is told of its length takes no memory before it has come.
pub fn read_body(from: &mut impl Read, step: &Step, length: u64) -> Result<Vec<u8>, Broken> {
    let mut bytes = Vec::new();
    let mut piece = vec![0; PIECE];
    while (bytes.len() as u64) < length {
        let wanted = (length - bytes.len() as u64).min(PIECE as u64) as usize;
        let came = match fill(from, &mut piece[..wanted]) {
            Ok(()) => wanted,
            Err(count) => count,
        };
        bytes.try_reserve(came).map_err(|_| Broken::NoMemory)?;
        bytes.extend_from_slice(&piece[..came]);
        if came < wanted {
            return Err(Broken::CutBody(Box::new(step.clone()), bytes));
        }
    }
    Ok(bytes)
}

#[cfg(test)]
mod tests {
    use super::*;

    fn step() -> Step {
        let values = |pairs: &[(&str, &str)]| pairs.iter().map(|(name, value)| (name.to_string(), value.to_string())).collect::<Values>();
        Step {
            to_name: "tank/a@b".into(),
            to_guid: 7,
            from_guid: 0,
            is_clone: false,
            creation: -5,
            kind: Kind::Volume,
            volume: values(&[("volsize", "8192")]),
            properties: Some(values(&[("x:y", ""), ("quota", "5")])),
            snapshot_properties: values(&[("a:b", "c")]),
            holds: vec!["kept".into()],
            resumes_at: Some(3),
        }
    }

    fn begin() -> Begin {
        let listed = |name: &str, guid, properties| Listed { name: name.into(), guid, properties };
        let snapshots = vec![listed("s", 1, Values::new()), listed("t", u64::MAX, Values::from([("a:b".into(), "c".into())]))];
        Begin { to_name: "tank@t".into(), is_replication: true, is_incremental: true, is_compound: true, file_systems: vec![("tank".into(), snapshots)] }
    }

    fn whole() -> Vec<u8> {
        let mut bytes = MAGIC.to_vec();
        Head::Begin(begin()).write(0, &mut bytes).unwrap();
        Head::Step(step()).write(4, &mut bytes).unwrap();
        bytes.extend(b"body");
        Head::End.write(0, &mut bytes).unwrap();
        bytes
    }

    fn read(mut bytes: &[u8]) -> Result<Vec<Head>, Broken> {
        read_magic(&mut bytes)?;
        let mut heads = Vec::new();
        loop {
            let (head, length) = read_head(&mut bytes)?;
            if let Head::Step(step) = &head {
                assert_eq!(read_body(&mut bytes, step, length)?, b"body");
            }
            let is_end = head == Head::End;
            heads.push(head);
            if is_end {
                return Ok(heads);
            }
        }
    }

    #[test]
    fn records_are_read_as_they_were_written() {
        assert_eq!(read(&whole()).unwrap(), [Head::Begin(begin()), Head::Step(step()), Head::End]);
    }

    #[test]
    fn every_cut_is_told() {
        let whole = whole();
        for length in 0..whole.len() {
            match read(&whole[..length]).unwrap_err() {
                Broken::Empty => assert_eq!(length, 0),
                Broken::Cut => {}
                Broken::CutBody(cut, bytes) => assert!(*cut == step() && b"body".starts_with(&bytes) && bytes.len() < 4),
                other => panic!("{other:?} at {length}"),
            }
        }
    }

    #[test]
    fn every_changed_byte_of_a_head_is_told() {
        let whole = whole();
        let body = whole.windows(4).position(|window| window == b"body").unwrap();
        for place in (0..whole.len()).filter(|place| !(body..body + 4).contains(place)) {
            let mut bytes = whole.clone();
            bytes[place] ^= 1;
            assert!(read(&bytes).is_err(), "at {place}");
        }
    }

    #[test]
    fn a_length_that_was_made_up_takes_no_memory() {
        let mut bytes = b"S".to_vec();
        bytes.extend(u32::MAX.to_be_bytes());
        bytes.extend([0; 8]);
        assert_eq!(read_head(&mut &bytes[..]), Err(Broken::Damaged));
        assert!(matches!(read_body(&mut &b"few"[..], &step(), u64::MAX), Err(Broken::CutBody(..))));
    }
}
