//! The columns of the eleven tables, and reasons 1 to 7, 13 and 14.

use super::coefficients::Coefficient;
use super::faults::{plain, Fault, Unformed};
use super::lines::Line;
use super::numbers::{misspelt_number, number};

/// 01: "A verdict is reason × 256 + column", 0 for good.
pub type Verdict = u16;

pub const GOOD: Verdict = 0;

pub const fn verdict(reason: u16, column: u16) -> Verdict {
    reason * 256 + column
}

#[derive(Clone, Copy, Debug)]
pub enum Kind {
    Text,
    Number {
        least: i64,
        greatest: i64,
    },
    Letter(&'static [u8]),
    /// A coefficient of a polynomial.
    Coefficient,
}

#[derive(Clone, Copy, Debug)]
pub struct Column {
    pub width: usize,
    pub mandatory: bool,
    pub kind: Kind,
}

impl Column {
    const fn mandatory(self) -> Column {
        Column { mandatory: true, ..self }
    }
}

const fn text(width: usize) -> Column {
    Column { width, mandatory: false, kind: Kind::Text }
}

const fn ranged(width: usize, least: i64, greatest: i64) -> Column {
    Column { width, mandatory: false, kind: Kind::Number { least, greatest } }
}

const fn letter(letters: &'static [u8]) -> Column {
    Column { width: 1, mandatory: false, kind: Kind::Letter(letters) }
}

const fn coefficient(width: usize) -> Column {
    Column { width, mandatory: false, kind: Kind::Coefficient }
}

const SERVICE: Column = ranged(3, 0, 255).mandatory();
const APID: Column = ranged(5, 0, 65_535);
const IDENTIFIER: Column = ranged(10, 0, 2_147_483_647);
const SPID: Column = ranged(10, 1, 4_294_967_295).mandatory();
const PI_OFFSET: Column = ranged(5, -1, 8_191).mandatory();
const PI_WIDTH: Column = ranged(3, 0, 32).mandatory();
const NAME: Column = text(8).mandatory();
const CURVE: Column = text(10).mandatory();
const VALPAR: Column = ranged(5, -9_999, 65_535);
const FORMAT: Column = letter(b"IUR").mandatory();
const COORDINATE: Column = ranged(14, -1_073_741_824, 1_073_741_823).mandatory();
const BOUND: Column = ranged(14, -2_147_483_648, 4_294_967_295).mandatory();

pub const PID: &[Column] = &[
    SERVICE,
    SERVICE,
    APID.mandatory(),
    IDENTIFIER,
    IDENTIFIER,
    SPID,
    text(64),
    text(8),
    text(10),
    text(2),
    text(1),
    text(8),
    letter(b"YN"),
    text(1),
    text(1),
    text(17),
];

pub const PIC: &[Column] = &[SERVICE, SERVICE, PI_OFFSET, PI_WIDTH, PI_OFFSET, PI_WIDTH, APID];

pub const PLF: &[Column] = &[
    NAME,
    SPID,
    ranged(5, 0, 8_191).mandatory(),
    ranged(1, 0, 7).mandatory(),
    ranged(4, 1, 9_999),
    ranged(5, 0, 32_767),
    text(9),
    text(9),
];

pub const PCF: &[Column] = &[
    NAME,
    text(24),
    text(10),
    text(4),
    ranged(2, 0, 99).mandatory(),
    ranged(5, 0, 65_535).mandatory(),
    text(6),
    text(8),
    text(8),
    letter(b"NST").mandatory(),
    letter(b"RDPHSC").mandatory(),
    text(10),
    letter(b"PF"),
    text(1),
    text(3),
    text(14),
    text(8),
    VALPAR,
    text(1),
    text(1),
    text(5),
    text(1),
    text(1),
];

pub const CAF: &[Column] =
    &[CURVE, text(32), FORMAT, FORMAT, letter(b"DHO"), text(4), ranged(3, 2, 100).mandatory(), letter(b"PF")];

pub const CAP: &[Column] = &[CURVE, COORDINATE, COORDINATE];

pub const TXF: &[Column] = &[CURVE, text(32), FORMAT, ranged(3, 1, 999).mandatory()];

pub const TXP: &[Column] = &[CURVE, BOUND, BOUND, text(14).mandatory()];

pub const OCF: &[Column] = &[
    NAME,
    ranged(2, 1, 99).mandatory(),
    ranged(2, 1, 16).mandatory(),
    letter(b"UC").mandatory(),
    letter(b"RAI").mandatory(),
];

pub const OCP: &[Column] =
    &[NAME, ranged(2, 0, 99).mandatory(), letter(b"SHDCE").mandatory(), BOUND, BOUND, text(8), VALPAR];

/// 02, P1: "IDENT 10!, DESCR 32, POL1 14!, POL2 to POL5 14 each, default 0".
pub const MCF: &[Column] = &[
    CURVE,
    text(32),
    coefficient(14).mandatory(),
    coefficient(14),
    coefficient(14),
    coefficient(14),
    coefficient(14),
];

/// The schemas in the order of the tables.
pub const SCHEMAS: [&[Column]; 11] = [PID, PIC, PLF, PCF, CAF, CAP, TXF, TXP, OCF, OCP, MCF];

const MOST_COLUMNS: usize = 23;

/// The columns of a line without reasons 1 to 7, 13 and 14, counted from 1 as in 01.
#[derive(Default)]
pub struct Columns<'a> {
    texts: [&'a [u8]; MOST_COLUMNS],
    numbers: [i64; MOST_COLUMNS],
}

impl<'a> Columns<'a> {
    /// Reasons 1 to 7, 13 and 14: the first of the line, else its columns are kept.
    pub fn fill(&mut self, line: Line<'a>, schema: &[Column]) -> Result<(), Unformed> {
        if !line.ended || line.bytes.len() > 512 {
            return Err(verdict(1, 0).into());
        }
        if !line.bytes.iter().all(|&byte| byte == b'\t' || (0x20..=0x7E).contains(&byte)) {
            return Err(verdict(2, 0).into());
        }
        self.divide(line.bytes, schema.len()).ok_or(verdict(3, 0))?;
        for (at, column) in schema.iter().enumerate() {
            let unformed = |Fault { reason, position }| {
                let cell = verdict(reason, at as u16 + 1);
                Unformed { cell, position }
            };
            self.numbers[at] = check_column(self.texts[at], column).map_err(unformed)?;
        }
        Ok(())
    }

    /// 01: "All columns are present."
    fn divide(&mut self, bytes: &'a [u8], count: usize) -> Option<()> {
        let mut parts = bytes.split(|&byte| byte == b'\t');
        for text in &mut self.texts[..count] {
            *text = parts.next()?;
        }
        parts.next().is_none().then_some(())
    }

    pub fn text(&self, column: usize) -> &'a [u8] {
        self.texts[column - 1]
    }

    pub fn given(&self, column: usize) -> Option<&'a [u8]> {
        Some(self.text(column)).filter(|text| !text.is_empty())
    }

    pub fn number(&self, column: usize) -> i64 {
        self.numbers[column - 1]
    }

    pub fn number_or(&self, column: usize, default: i64) -> i64 {
        self.given(column).map_or(default, |_| self.number(column))
    }

    pub fn letter(&self, column: usize) -> u8 {
        self.texts[column - 1][0]
    }

    pub fn letter_or(&self, column: usize, default: u8) -> u8 {
        self.given(column).map_or(default, |text| text[0])
    }
}

/// 01: "4 mandatory and empty, 5 too wide, 6 not a number or not a listed letter, 7 out of range"; 02, P2: "6 becomes
/// "no digits" …, 13 "a wrong digit" …, 14 "a letter not listed" … 13 and 14 stand in 6's place". The number of a column
/// of numbers, else 0.
fn check_column(text: &[u8], column: &Column) -> Result<i64, Fault> {
    if text.is_empty() {
        return if column.mandatory { Err(plain(4)) } else { Ok(0) };
    }
    if text.len() > column.width {
        return Err(plain(5));
    }
    match column.kind {
        Kind::Text => Ok(0),
        Kind::Letter(letters) => letters.contains(&text[0]).then_some(0).ok_or(plain(14)),
        Kind::Coefficient => Coefficient::read(text).map(|_| 0),
        Kind::Number { least, greatest } => {
            let value = number(text).ok_or_else(|| misspelt_number(text))?;
            (least..=greatest).contains(&value).then_some(value).ok_or(plain(7))
        }
    }
}
