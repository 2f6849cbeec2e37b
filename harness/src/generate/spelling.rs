//! Texts of columns.

use crate::random::Random;

/// Printable bytes, one to `width` of them.
pub fn text(random: &mut Random, width: usize) -> Vec<u8> {
    let length = 1 + random.below(width);
    (0..length).map(|_| random.between(0x20, 0x7E) as u8).collect()
}

/// A number in one of its spellings, decimal where another is wider than the column.
pub fn number(random: &mut Random, value: i64, width: usize) -> Vec<u8> {
    let spelt = match random.below(10) {
        0 if value >= 0 => format!("0{value:o}"),
        1 if value >= 0 => format!("0x{value:x}"),
        2 if value >= 0 => format!("0X{value:X}"),
        3 if value == 0 => "-0".to_string(),
        _ => value.to_string(),
    };
    if spelt.len() <= width {
        spelt.into_bytes()
    } else {
        value.to_string().into_bytes()
    }
}

/// A coefficient of a polynomial that fits the column; its power of ten is now and then out of range.
pub fn coefficient(random: &mut Random, width: usize) -> Vec<u8> {
    loop {
        let spelt = sign(random).to_string() + &mantissa(random) + &exponent(random);
        if spelt.len() <= width {
            return spelt.into_bytes();
        }
    }
}

fn sign(random: &mut Random) -> &'static str {
    if random.chance(40) {
        "-"
    } else {
        ""
    }
}

/// One to fourteen digits, with a point or without.
fn mantissa(random: &mut Random) -> String {
    let few = random.chance(50);
    let length = 1 + random.below(if few { 3 } else { 14 });
    let zeros = random.chance(10);
    let digit = |_| if zeros { '0' } else { char::from(*random.pick(b"0123456789")) };
    let mut digits: String = (0..length).map(digit).collect();
    if random.chance(50) {
        digits.insert(1 + random.below(length), '.');
    }
    digits
}

/// Mostly none, or a small one; else one near the ends of what is good, or one that is long.
fn exponent(random: &mut Random) -> String {
    let value = match random.below(10) {
        0..=3 => return String::new(),
        4..=6 => random.between(-9, 9),
        7 => random.between(-23, 23),
        8 => *random.pick(&[-24, -23, -22, -21, -10, -9, 21, 22, 23, 24, 30, 33, 36]),
        _ => random.between(-999, 999),
    };
    let plus = if value >= 0 { *random.pick(&["", "", "+"]) } else { "-" };
    let zeros = *random.pick(&["", "", "", "0", "00"]);
    format!("{}{plus}{zeros}{}", *random.pick(&["e", "E"]), value.abs())
}

/// What a text that goes wrong starts with, and the digits that may follow.
type Start = (&'static str, &'static [u8]);

const NUMBER_STARTS: [Start; 6] = [
    ("1", DECIMAL),
    ("", DECIMAL),
    ("-9", DECIMAL),
    ("0", b"01234567"),
    ("0x", b"0123456789abcdefABCDEF"),
    ("0X", b"0123456789abcdefABCDEF"),
];

const COEFFICIENT_STARTS: [Start; 8] = [
    ("", DECIMAL),
    ("0", DECIMAL),
    ("-", DECIMAL),
    ("2.", DECIMAL),
    ("-3.5", DECIMAL),
    ("1e", DECIMAL),
    ("2.5E+", DECIMAL),
    ("-7e-", DECIMAL),
];

const DECIMAL: &[u8] = b"0123456789";

/// Characters that are wrong at most places, each in some.
const WRONG: &[u8] = b"OG8x.-+ eE,_~l";

/// A text for a column of numbers that goes wrong at one of its characters, any of them alike, or lacks digits.
pub fn misspelt_number(random: &mut Random, width: usize) -> Vec<u8> {
    let bare = *random.pick(&["-", "0x", "0X"]);
    if random.chance(20) && bare.len() <= width {
        return bare.as_bytes().to_vec();
    }
    let start = *random.pick(&NUMBER_STARTS);
    misspelt(random, width, start)
}

/// The same of coefficients, which may also end where an exponent should go on.
pub fn misspelt_coefficient(random: &mut Random, width: usize) -> Vec<u8> {
    if random.chance(10) {
        return b"-".to_vec();
    }
    if random.chance(30) {
        let end = *random.pick(&["e", "E", "e+", "E-"]);
        let length = random.below(width + 1 - end.len());
        let mut text = begun(random, length, ("1", DECIMAL));
        text.extend(end.bytes());
        return text;
    }
    let start = *random.pick(&COEFFICIENT_STARTS);
    misspelt(random, width, start)
}

/// A beginning of fewer characters than the column has, a wrong character, and whatever else fits.
fn misspelt(random: &mut Random, width: usize, start: Start) -> Vec<u8> {
    let length = random.below(width);
    let mut text = begun(random, length, start);
    text.push(*random.pick(WRONG));
    let behind = random.below(width + 1 - text.len());
    text.extend((0..behind).map(|_| *random.pick(b"0123456789OxeE.-+ ")));
    text
}

/// A start and digits behind it, cut or drawn out to a length.
fn begun(random: &mut Random, length: usize, (start, digits): Start) -> Vec<u8> {
    let mut text = start.as_bytes().to_vec();
    text.truncate(length);
    text.extend((text.len()..length).map(|_| *random.pick(digits)));
    text
}

/// Names that no two calls give alike, over few letters, so that many differ in one byte.
#[derive(Default)]
pub struct Names(std::collections::HashSet<Vec<u8>>);

impl Names {
    pub fn fresh(&mut self, random: &mut Random, width: usize) -> Vec<u8> {
        loop {
            let length = 1 + random.below(width);
            let name: Vec<u8> = (0..length).map(|_| *random.pick(b"ABa0 _~")).collect();
            if self.0.insert(name.clone()) {
                return name;
            }
        }
    }
}
