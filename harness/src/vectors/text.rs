//! The text of a line: bytes, columns and numbers. What isn't as it should be is `None`.

use crate::reference::numbers::number;

/// Numbers from here on stand for 2^64 - 1 in a question, and their value isn't told.
pub const BEYOND: i64 = 1 << 60;

/// `|` stands for a TAB, and `\` with two hexadecimal digits for any byte.
pub fn bytes(text: &[u8]) -> Option<Vec<u8>> {
    let mut bytes = Vec::with_capacity(text.len());
    let mut rest = text;
    loop {
        rest = match rest {
            [] => return Some(bytes),
            [b'\\', high, low, after @ ..] => {
                bytes.push(byte_of(*high, *low)?);
                after
            }
            [b'\\', ..] => return None,
            [b'|', after @ ..] => {
                bytes.push(b'\t');
                after
            }
            [other, after @ ..] => {
                bytes.push(*other);
                after
            }
        }
    }
}

/// A row's bytes: a line feed ends it, unless a `\` stands at the very end of its text.
pub fn row(text: &[u8]) -> Option<Vec<u8>> {
    if let [open @ .., b'\\'] = text {
        return bytes(open);
    }
    let mut row = bytes(text)?;
    row.push(b'\n');
    Some(row)
}

/// Bytes of two hexadecimal digits each, with or without a space between them.
pub fn hexadecimal(text: &[u8]) -> Option<Vec<u8>> {
    let mut bytes = Vec::with_capacity(text.len() / 2);
    let mut rest = text;
    loop {
        rest = match rest {
            [] => return Some(bytes),
            [b' ', after @ ..] => after,
            [high, low, after @ ..] => {
                bytes.push(byte_of(*high, *low)?);
                after
            }
            _ => return None,
        }
    }
}

/// A byte by its two hexadecimal digits.
pub fn byte_of(high: u8, low: u8) -> Option<u8> {
    let digit = |byte: u8| char::from(byte).to_digit(16);
    Some((digit(high)? * 16 + digit(low)?) as u8)
}

/// The columns of a text, if there are as many.
pub fn columns<const COUNT: usize>(text: &[u8]) -> Option<[Vec<u8>; COUNT]> {
    let bytes = bytes(text)?;
    let columns: Vec<Vec<u8>> = bytes.split(|&byte| byte == b'\t').map(<[u8]>::to_vec).collect();
    columns.try_into().ok()
}

/// The numbers of a text, if there are as many.
pub fn naturals<const COUNT: usize>(text: &[u8]) -> Option<[u64; COUNT]> {
    let columns = columns::<COUNT>(text)?;
    let numbers: Option<Vec<u64>> = columns.iter().map(|column| natural(column)).collect();
    numbers?.try_into().ok()
}

/// A number from 0 on: "One of 2^60 or more in a question stands for 2^64 - 1."
pub fn natural(text: &[u8]) -> Option<u64> {
    match number(text)? {
        value if value >= BEYOND => Some(u64::MAX),
        value => u64::try_from(value).ok(),
    }
}
