//! Resume tokens: what a cut receive has, in letters, digits and `-`.
//!
//! `1-`, a sum of 16 digits, `-`, and in hexadecimal digits two guids, a count of bytes and the sender's name of the snapshot.

use super::Partial;
use std::fmt;

/// What a token tells.
#[derive(Clone, Debug, PartialEq, Eq)]
pub struct Token {
    pub to_name: String,
    pub to_guid: u64,
    pub from_guid: u64,
    pub at: u64,
}

/// What is wrong with a token.
#[derive(Clone, Copy, Debug, PartialEq, Eq)]
pub enum Corrupt {
    Format,
    Checksum,
}

impl fmt::Display for Corrupt {
    fn fmt(&self, f: &mut fmt::Formatter<'_>) -> fmt::Result {
        f.write_str(match self {
            Corrupt::Format => "resume token is corrupt (invalid format)",
            Corrupt::Checksum => "resume token is corrupt (incorrect checksum)",
        })
    }
}

/// A sum of bytes (FNV-1a): it tells a token that was cut or changed.
pub fn sum(bytes: &[u8]) -> u64 {
    bytes.iter().fold(0xcbf2_9ce4_8422_2325, |sum, &byte| (sum ^ u64::from(byte)).wrapping_mul(0x100_0000_01b3))
}

/// The token of a cut receive.
pub fn of(partial: &Partial) -> String {
    let token = Token {
        to_name: partial.to_name.clone(),
        to_guid: partial.to_guid,
        from_guid: partial.from_guid,
        at: partial.bytes.len() as u64,
    };
    token.text()
}

impl Token {
    pub fn text(&self) -> String {
        let numbers = [self.to_guid, self.from_guid, self.at];
        let bytes: Vec<u8> = numbers.iter().flat_map(|number| number.to_be_bytes()).chain(self.to_name.bytes()).collect();
        let digits: String = bytes.iter().map(|byte| format!("{byte:02x}")).collect();
        format!("1-{:016x}-{digits}", sum(&bytes))
    }

    /// Reads a token.
    pub fn read(text: &str) -> Result<Token, Corrupt> {
        let (told, digits) = text.strip_prefix("1-").and_then(|rest| rest.split_once('-')).ok_or(Corrupt::Format)?;
        let told = u64::from_str_radix(told, 16).map_err(|_| Corrupt::Format)?;
        let bytes = bytes_of(digits).ok_or(Corrupt::Checksum)?;
        if told != sum(&bytes) {
            return Err(Corrupt::Checksum);
        }
        let number = |place: usize| bytes.get(place..place + 8).and_then(|part| part.try_into().ok()).map(u64::from_be_bytes);
        let to_name = bytes.get(24..).and_then(|name| String::from_utf8(name.to_vec()).ok());
        let (to_guid, from_guid, at) = (number(0), number(8), number(16));
        match (to_guid, from_guid, at, to_name) {
            (Some(to_guid), Some(from_guid), Some(at), Some(to_name)) => Ok(Token { to_name, to_guid, from_guid, at }),
            _ => Err(Corrupt::Format),
        }
    }
}

fn bytes_of(digits: &str) -> Option<Vec<u8>> {
    if !digits.is_ascii() || !digits.len().is_multiple_of(2) {
        return None;
    }
    (0..digits.len()).step_by(2).map(|at| u8::from_str_radix(&digits[at..at + 2], 16).ok()).collect()
}

#[cfg(test)]
mod tests {
    use super::*;

    #[test]
    fn a_token_is_read_as_it_was_written() {
        let token = Token { to_name: "tank/a b@c".into(), to_guid: u64::MAX, from_guid: 0, at: 1 << 40 };
        let text = token.text();
        assert!(text.bytes().all(|byte| byte.is_ascii_alphanumeric() || byte == b'-'), "{text}");
        assert_eq!(Token::read(&text), Ok(token));
    }

    #[test]
    fn a_token_that_was_changed_is_corrupt() {
        let text = Token { to_name: "a@b".into(), to_guid: 5, from_guid: 6, at: 7 }.text();
        for place in 2..text.len() {
            let mut bytes = text.clone().into_bytes();
            bytes[place] = if bytes[place] == b'0' { b'1' } else { b'0' };
            assert!(Token::read(&String::from_utf8(bytes).unwrap()).is_err(), "at {place}");
            assert!(Token::read(&text[..place]).is_err());
        }
        assert_eq!(Token::read(""), Err(Corrupt::Format));
        assert_eq!(Token::read("1-é"), Err(Corrupt::Format));
        assert_eq!(Token::read("1-0-é"), Err(Corrupt::Checksum));
    }
}
