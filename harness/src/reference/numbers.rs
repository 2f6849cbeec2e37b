//! The text of a number.

use super::faults::{misspelt, Fault};

/// 01: "A number is decimal, octal after a leading 0, or hexadecimal, either case, after 0x or 0X. A minus
/// may stand before a decimal that is "0" or starts with 1 to 9."
/// A number past the ends of `i64` is held at the end, which is outside every column's range.
pub fn number(text: &[u8]) -> Option<i64> {
    match text {
        [b'-', b'0'] | [b'0'] => Some(0),
        [b'-', b'1'..=b'9', ..] => digits(&text[1..], 10).map(|n| -n),
        [b'0', b'x' | b'X', hexadecimal @ ..] => digits(hexadecimal, 16),
        [b'0', octal @ ..] => digits(octal, 8),
        decimal => digits(decimal, 10),
    }
}

/// Where a text that is no number goes wrong. 02, P2: "for "-" and, outside mcf, "0x" and "0X"".
pub fn misspelt_number(text: &[u8]) -> Fault {
    misspelt(text, &[b"-", b"0x", b"0X"], |text| number(text).is_some())
}

fn digits(text: &[u8], radix: u32) -> Option<i64> {
    if text.is_empty() {
        return None;
    }
    text.iter().try_fold(0i64, |value, &byte| {
        let digit = char::from(byte).to_digit(radix)?;
        Some(value.saturating_mul(i64::from(radix)).saturating_add(i64::from(digit)))
    })
}
