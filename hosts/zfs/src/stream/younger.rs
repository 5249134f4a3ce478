//! How many blocks a stream of the layer stands for (crates/stream/specs: Spelling, Records).

use std::collections::HashSet;

/// The text and two guids before the records.
const HEAD: usize = 24;

/// The bytes of a block.
const BLOCK: usize = 512;

/// The level of a tree's root, and of how many bits a place among a block's children is.
const ROOT: u8 = 5;
const BITS: u8 = 4;

/// How many blocks of the target are younger than the source; none where the bytes are no stream. A record tells of a leaf that was written, or of a
/// child that a younger block hasn't. So the blocks above all records are the younger ones that are no leaves.
pub fn younger_blocks(stream: &[u8]) -> Option<u64> {
    let number = |at: usize| Some(u32::from_be_bytes(stream.get(at..at + 4)?.try_into().ok()?));
    let (mut leaves, mut above, mut at) = (0, HashSet::new(), HEAD);
    loop {
        let (level, index) = match *stream.get(at)? {
            0 => return Some(leaves + above.len() as u64),
            1 => {
                leaves += 1;
                (0, number(at + 1)?)
            }
            2 => (*stream.get(at + 1)?, number(at + 2)?),
            _ => return None,
        };
        at += if stream[at] == 1 { 5 + BLOCK } else { 6 };
        let mut ancestors = (level.saturating_add(1)..=ROOT).map(|up| (up, index >> (BITS * (up - level))));
        // Where one is known, so are those above it.
        while ancestors.next().is_some_and(|key| above.insert(key)) {}
    }
}

#[cfg(test)]
mod tests {
    use super::*;
    use crate::host::tests::{host, make, snapshot};
    use crate::host::Host;

    /// The bytes that the layer tells, and those of the stream's blocks.
    fn both(host: &mut Host, from: &str, to: &str) -> (u64, u64) {
        let (from, to) = (host.open(from).unwrap().path, host.open(to).unwrap().path);
        let stream = host.layer.stream(&to, Some(&from), 0).unwrap();
        (host.layer.number(&format!("get written@{from} {to}")).unwrap(), 512 * younger_blocks(&stream).unwrap())
    }

    #[test]
    fn a_stream_stands_for_what_was_written() {
        let mut host = host();
        make(&mut host, "tank/a");
        let path = host.open("tank/a").unwrap().path;
        let mut before = "tank/a@0".to_owned();
        snapshot(&mut host, &before);
        for lines in ["write 0 0,write 0 1", "write 0 16,write 9 4095", "punch 0 1", "rmobj 9", "write 3 300,punch 3 300", "rmobj 0,rmobj 255", "write 7 7", ""] {
            for line in lines.split(',').filter(|line| !line.is_empty()) {
                let (command, place) = line.split_once(' ').unwrap();
                let bytes = if command == "write" { " 61" } else { "" };
                host.layer.order(&format!("{command} {path} {place}{bytes}")).unwrap();
            }
            let after = format!("{before}{}", lines.len());
            snapshot(&mut host, &after);
            let (told, counted) = both(&mut host, &before, &after);
            assert_eq!(told, counted, "{lines}");
            let (told, counted) = both(&mut host, "tank/a@0", &after);
            assert_eq!(told, counted, "{lines}, since the first");
            before = after;
        }
    }

    #[test]
    fn what_is_no_stream_has_no_blocks() {
        let mut host = host();
        snapshot(&mut host, "tank@s");
        let stream = host.layer.stream("p@s", None, 0).unwrap();
        assert_eq!(younger_blocks(&stream), Some(6));
        for length in 0..stream.len() - 32 {
            assert_eq!(younger_blocks(&stream[..length]), None, "{length}");
        }
    }
}
