//! Why a column or a row isn't taken, and where a number went wrong.

use super::schemas::Verdict;

/// 02, P2: "the position, from 1, of the first character at which no allowed number can go on, or one past the end …,
/// otherwise 0".
pub type Position = u16;

/// What is wrong with a column.
#[derive(Clone, Copy, Debug, PartialEq, Eq)]
pub struct Fault {
    pub reason: u16,
    pub position: Position,
}

/// What a row that isn't well-formed gets: its cell and its position.
#[derive(Clone, Copy, Debug, PartialEq, Eq)]
pub struct Unformed {
    pub cell: Verdict,
    pub position: Position,
}

/// A reason that has no position.
pub const fn plain(reason: u16) -> Fault {
    Fault { reason, position: 0 }
}

impl From<Verdict> for Unformed {
    /// A verdict that has no position.
    fn from(cell: Verdict) -> Unformed {
        Unformed { cell, position: 0 }
    }
}

/// 02, P2: "6 becomes "no digits" …, 13 "a wrong digit", for any other bad number". The text is none of those allowed;
/// `bare` are the texts of 6.
pub fn misspelt(text: &[u8], bare: &[&[u8]], allowed: impl Fn(&[u8]) -> bool) -> Fault {
    let wrong = (1..=text.len()).find(|&end| !goes_on(&text[..end], &allowed));
    let reason = if bare.contains(&text) { 6 } else { 13 };
    Fault { reason, position: wrong.unwrap_or(text.len() + 1) as Position }
}

/// Whether some allowed text starts so: of numbers and of coefficients one does if this is one, or with a 0 behind it.
fn goes_on(start: &[u8], allowed: impl Fn(&[u8]) -> bool) -> bool {
    allowed(start) || allowed(&[start, b"0"].concat())
}

#[cfg(test)]
mod tests {
    use super::{goes_on, Fault};
    use crate::reference::coefficients::{misspelt_coefficient, Coefficient};
    use crate::reference::numbers::{misspelt_number, number};

    const fn at(reason: u16, position: u16) -> Fault {
        Fault { reason, position }
    }

    #[test]
    fn numbers_that_go_wrong() {
        let texts = [
            ("-", at(6, 2)),
            ("0x", at(6, 3)),
            ("0X", at(6, 3)),
            ("08", at(13, 2)),
            ("-07", at(13, 3)),
            ("-0x", at(13, 3)),
            ("1 ", at(13, 2)),
            ("+1", at(13, 1)),
            ("0x1G", at(13, 4)),
            ("1e", at(13, 2)),
            (".5", at(13, 1)),
            ("0x123456789ABG", at(13, 14)),
            ("99999999999999999999O", at(13, 21)),
        ];
        for (text, fault) in texts {
            assert_eq!(number(text.as_bytes()), None, "{text}");
            assert_eq!(misspelt_number(text.as_bytes()), fault, "{text}");
        }
    }

    #[test]
    fn coefficients_that_go_wrong() {
        let texts = [
            ("-", at(6, 2)),
            ("0x", at(13, 2)),
            ("0X", at(13, 2)),
            ("1e", at(13, 3)),
            ("1e+", at(13, 4)),
            ("-e", at(13, 2)),
            (".5", at(13, 1)),
            ("-0x", at(13, 3)),
            ("1 ", at(13, 2)),
            ("+1", at(13, 1)),
            ("1234567890123e", at(13, 15)),
            ("1e999x", at(13, 6)),
        ];
        for (text, fault) in texts {
            assert_eq!(Coefficient::read(text.as_bytes()), Err(fault), "{text}");
            assert_eq!(misspelt_coefficient(text.as_bytes()), fault, "{text}");
        }
    }

    /// All texts of at most so many characters that matter.
    fn texts(longest: usize) -> Vec<Vec<u8>> {
        let mut all = vec![Vec::new()];
        let mut last = all.clone();
        for _ in 0..longest {
            let longer = |text: &Vec<u8>| b"-+0189xXeEaG. ".map(|byte| [text.as_slice(), &[byte]].concat());
            last = last.iter().flat_map(longer).collect();
            all.extend(last.clone());
        }
        all
    }

    /// What can go on is what some further characters make a number of: two are enough.
    #[test]
    fn to_go_on_is_to_begin_one() {
        let is_number = |text: &[u8]| number(text).is_some();
        let is_coefficient =
            |text: &[u8]| !matches!(Coefficient::read(text), Err(Fault { reason: 6 | 13, .. }));
        let behind = texts(2);
        for start in texts(3) {
            let begins = |allowed: &dyn Fn(&[u8]) -> bool| {
                behind.iter().any(|behind| allowed(&[start.as_slice(), behind.as_slice()].concat()))
            };
            let shown = start.escape_ascii();
            assert_eq!(goes_on(&start, is_number), begins(&is_number), "{shown}");
            assert_eq!(goes_on(&start, is_coefficient), begins(&is_coefficient), "{shown}");
        }
    }
}
