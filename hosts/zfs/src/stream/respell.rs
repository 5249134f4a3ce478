//! The layer's stream onto another source of the same contents.
//!
//! A stream says what has changed since its source, and names the source by its guid (crates/stream/specs): a text of 8 bytes, the guids of
//! source and target, the records, and a SHA-256 of all before it. A snapshot of an emptied file system has the contents that a stream in full
//! starts from, and a newer snapshot that has changed nothing has its source's. So either may be the source, once its guid stands there.

use crate::layer::Refusal;

const MAGIC: &[u8; 8] = b"ZDSTRM01";
const DIGEST: usize = 32;

/// The bytes of a stream without a record, which is one between equal contents: the text, two guids, a byte for the end, the digest.
pub const EMPTY: u64 = 57;

/// The bytes of a block of SHA-256.
const BLOCK: usize = 64;

const FIRST: [u32; 8] =
    [0x6a09_e667, 0xbb67_ae85, 0x3c6e_f372, 0xa54f_f53a, 0x510e_527f, 0x9b05_688c, 0x1f83_d9ab, 0x5be0_cd19];

const ROUNDS: [u32; 64] = [
    0x428a_2f98, 0x7137_4491, 0xb5c0_fbcf, 0xe9b5_dba5, 0x3956_c25b, 0x59f1_11f1, 0x923f_82a4, 0xab1c_5ed5, 0xd807_aa98, 0x1283_5b01,
    0x2431_85be, 0x550c_7dc3, 0x72be_5d74, 0x80de_b1fe, 0x9bdc_06a7, 0xc19b_f174, 0xe49b_69c1, 0xefbe_4786, 0x0fc1_9dc6, 0x240c_a1cc,
    0x2de9_2c6f, 0x4a74_84aa, 0x5cb0_a9dc, 0x76f9_88da, 0x983e_5152, 0xa831_c66d, 0xb003_27c8, 0xbf59_7fc7, 0xc6e0_0bf3, 0xd5a7_9147,
    0x06ca_6351, 0x1429_2967, 0x27b7_0a85, 0x2e1b_2138, 0x4d2c_6dfc, 0x5338_0d13, 0x650a_7354, 0x766a_0abb, 0x81c2_c92e, 0x9272_2c85,
    0xa2bf_e8a1, 0xa81a_664b, 0xc24b_8b70, 0xc76c_51a3, 0xd192_e819, 0xd699_0624, 0xf40e_3585, 0x106a_a070, 0x19a4_c116, 0x1e37_6c08,
    0x2748_774c, 0x34b0_bcb5, 0x391c_0cb3, 0x4ed8_aa4a, 0x5b9c_ca4f, 0x682e_6ff3, 0x748f_82ee, 0x78a5_636f, 0x84c8_7814, 0x8cc7_0208,
    0x90be_fffa, 0xa450_6ceb, 0xbef9_a3f7, 0xc671_78f2,
];

/// The stream with another source: BadStream where it isn't whole.
pub fn with_source(stream: &[u8], guid: u64) -> Result<Vec<u8>, Refusal> {
    let digested = stream.len().checked_sub(DIGEST).ok_or(Refusal::BadStream)?;
    if !stream.starts_with(MAGIC) || digested <= MAGIC.len() + 16 || sha256(&stream[..digested]) != stream[digested..] {
        return Err(Refusal::BadStream);
    }
    let mut bytes = Vec::new();
    bytes.try_reserve_exact(stream.len()).map_err(|_| Refusal::NoMemory)?;
    bytes.extend_from_slice(&stream[..digested]);
    bytes[MAGIC.len()..MAGIC.len() + 8].copy_from_slice(&guid.to_be_bytes());
    let digest = sha256(&bytes);
    bytes.extend(digest);
    Ok(bytes)
}

/// SHA-256 (FIPS 180-4).
fn sha256(bytes: &[u8]) -> [u8; DIGEST] {
    let mut state = FIRST;
    let (blocks, rest) = bytes.split_at(bytes.len() / BLOCK * BLOCK);
    blocks.chunks_exact(BLOCK).for_each(|block| round(&mut state, block));
    let mut last = rest.to_vec();
    last.push(0x80);
    let length = if last.len() + 8 <= BLOCK { BLOCK } else { 2 * BLOCK };
    last.resize(length - 8, 0);
    last.extend((bytes.len() as u64 * 8).to_be_bytes());
    last.chunks_exact(BLOCK).for_each(|block| round(&mut state, block));
    let mut digest = [0; DIGEST];
    digest.chunks_exact_mut(4).zip(state).for_each(|(part, word)| part.copy_from_slice(&word.to_be_bytes()));
    digest
}

fn round(state: &mut [u32; 8], block: &[u8]) {
    let mut words = [0u32; 64];
    for (word, part) in words.iter_mut().zip(block.chunks_exact(4)) {
        *word = u32::from_be_bytes([part[0], part[1], part[2], part[3]]);
    }
    for at in 16..64 {
        let (old, new) = (words[at - 15], words[at - 2]);
        let small = old.rotate_right(7) ^ old.rotate_right(18) ^ (old >> 3);
        let large = new.rotate_right(17) ^ new.rotate_right(19) ^ (new >> 10);
        words[at] = words[at - 16].wrapping_add(small).wrapping_add(words[at - 7]).wrapping_add(large);
    }
    let [mut a, mut b, mut c, mut d, mut e, mut f, mut g, mut h] = *state;
    for (constant, word) in ROUNDS.iter().zip(words) {
        let choice = (e & f) ^ (!e & g);
        let large = e.rotate_right(6) ^ e.rotate_right(11) ^ e.rotate_right(25);
        let first = h.wrapping_add(large).wrapping_add(choice).wrapping_add(*constant).wrapping_add(word);
        let majority = (a & b) ^ (a & c) ^ (b & c);
        let second = (a.rotate_right(2) ^ a.rotate_right(13) ^ a.rotate_right(22)).wrapping_add(majority);
        (h, g, f, e, d, c, b, a) = (g, f, e, d.wrapping_add(first), c, b, a, first.wrapping_add(second));
    }
    for (word, part) in state.iter_mut().zip([a, b, c, d, e, f, g, h]) {
        *word = word.wrapping_add(part);
    }
}

#[cfg(test)]
mod tests {
    use super::*;

    fn hex(bytes: &[u8]) -> String {
        bytes.iter().map(|byte| format!("{byte:02x}")).collect()
    }

    /// The examples of FIPS 180-4, and a million letters.
    #[test]
    fn digests_are_those_of_the_standard() {
        assert_eq!(hex(&sha256(b"")), "e3b0c44298fc1c149afbf4c8996fb92427ae41e4649b934ca495991b7852b855");
        assert_eq!(hex(&sha256(b"abc")), "ba7816bf8f01cfea414140de5dae2223b00361a396177a9cb410ff61f20015ad");
        let two_blocks = b"abcdbcdecdefdefgefghfghighijhijkijkljklmklmnlmnomnopnopq";
        assert_eq!(hex(&sha256(two_blocks)), "248d6a61d20638b8e5c026930c3e6039a33ce45964ff2167f6ecedd419db06c1");
        assert_eq!(hex(&sha256(&vec![b'a'; 1_000_000])), "cdc76e5c9914fb9281a1c7e284d73e67f1809a48a497200e046d39ccc7112cd0");
    }

    #[test]
    fn a_stream_that_isn_t_whole_is_refused() {
        let mut stream = MAGIC.to_vec();
        stream.extend([0; 16]);
        stream.push(0);
        stream.extend(sha256(&stream.clone()));
        let other = with_source(&stream, 7).unwrap();
        assert_eq!(other[8..16], 7u64.to_be_bytes());
        assert_eq!(with_source(&other, 0).as_deref(), Ok(&stream[..]));
        for length in 0..stream.len() {
            assert_eq!(with_source(&stream[..length], 7), Err(Refusal::BadStream));
        }
        stream[20] ^= 1;
        assert_eq!(with_source(&stream, 7), Err(Refusal::BadStream));
    }
}
