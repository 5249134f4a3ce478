//! Sizes, as people write and read them.

use crate::failure::Reason;

const UNITS: &str = "BKMGTPEZ";

/// How far a suffix shifts: `G`, `GB` and `GiB` are one, in either case.
fn shift(suffix: &str) -> Option<u32> {
    let mut characters = suffix.chars();
    let Some(first) = characters.next() else { return Some(0) };
    let place = UNITS.find(first.to_ascii_uppercase())?;
    let rest = characters.as_str().to_ascii_uppercase();
    let is_unit = rest.is_empty() || place > 0 && matches!(rest.as_str(), "B" | "IB");
    is_unit.then_some(10 * place as u32)
}

/// A number with or without a unit.
pub fn parsed(text: &str) -> Result<u64, Reason> {
    if !text.starts_with(|first: char| first.is_ascii_digit() || first == '.') {
        return Err(Reason::Text(format!("bad numeric value '{text}'")));
    }
    let too_large = || Reason::Text("numeric value is too large".into());
    let digits = text.find(|c: char| !c.is_ascii_digit()).unwrap_or(text.len());
    let end = match text[digits..].strip_prefix('.') {
        Some(rest) => text.len() - rest.len() + rest.find(|c: char| !c.is_ascii_digit()).unwrap_or(rest.len()),
        None => digits,
    };
    let suffix = &text[end..];
    let shift = shift(suffix).ok_or_else(|| Reason::Text(format!("invalid numeric suffix '{suffix}'")))?;
    if end > digits {
        let value = text[..end].parse::<f64>().unwrap_or(0.0) * 2f64.powi(shift as i32);
        return if value < u64::MAX as f64 { Ok(value as u64) } else { Err(too_large()) };
    }
    let number = text[..digits].parse::<u64>().map_err(|_| too_large())?;
    if shift >= u64::BITS || (number << shift) >> shift != number {
        return Err(too_large());
    }
    Ok(number << shift)
}

/// In five characters, with `B` where there is no other unit.
pub fn bytes(number: u64) -> String {
    scaled(number, "B")
}

/// As `bytes`, without the `B`.
pub fn plain(number: u64) -> String {
    scaled(number, "")
}

fn scaled(number: u64, first: &str) -> String {
    let place = (0..6).take_while(|place| number >> (10 * place) >= 1024).count();
    let unit = if place == 0 { first } else { &UNITS[place..=place] };
    let scale = 1u64 << (10 * place);
    if number.is_multiple_of(scale) {
        return format!("{}{unit}", number / scale);
    }
    let value = number as f64 / scale as f64;
    (0..=2).rev().map(|digits| format!("{value:.digits$}{unit}")).find(|text| text.len() <= 5).unwrap_or_else(|| format!("{value:.0}{unit}"))
}

#[cfg(test)]
mod tests {
    use super::*;

    #[test]
    fn sizes_are_read_with_units() {
        let read = [("0", 0), ("512", 512), ("1k", 1024), ("2MB", 2 << 20), ("3GiB", 3 << 30), ("1.5K", 1536), (".5k", 512), ("1E", 1 << 60)];
        for (text, number) in read {
            assert_eq!(parsed(text), Ok(number), "{text}");
        }
        for text in ["", "x", "-1", "1BB", "1KK", "1X", "20000000000000000000", "16E", "1Z", "1K "] {
            assert!(parsed(text).is_err(), "{text}");
        }
        assert_eq!(parsed("1KK").unwrap_err().to_string(), "invalid numeric suffix 'KK'");
    }

    #[test]
    fn sizes_fit_in_five_characters() {
        for (number, text) in [(0, "0B"), (1023, "1023B"), (1024, "1K"), (1536, "1.50K"), (10239, "10.0K"), (102400, "100K"), (u64::MAX, "16.0E")] {
            assert_eq!(bytes(number), text, "{number}");
        }
        assert_eq!(plain(512), "512");
        assert_eq!(plain(1 << 30), "1G");
    }
}
