//! The rows of the eleven tables, decoded, and reason 8.

use std::hash::Hash;

use super::coefficients::Coefficient;
use super::faults::Unformed;
use super::lines::Line;
use super::polynomials::Polynomial;
use super::schemas::{self, verdict, Column, Columns};

/// A row of one of the eleven tables.
pub trait Record<'a>: Sized {
    const SCHEMA: &'static [Column];
    type Key: Eq + Hash;

    /// The row, or the lowest column that contradicts another (reason 8).
    fn read(columns: &Columns<'a>, line: Line<'a>) -> Result<Self, u16>;

    /// The key it holds: its first, where it holds two.
    fn key(&self) -> Option<Self::Key>;
}

/// The row of a line without reasons 1 to 8, 13 and 14; `columns` are room to divide it in.
pub fn read_row<'a, T: Record<'a>>(line: Line<'a>, columns: &mut Columns<'a>) -> Result<T, Unformed> {
    columns.fill(line, T::SCHEMA)?;
    T::read(columns, line).map_err(|column| verdict(8, column).into())
}

/// The first column of the list whose clash holds.
fn lowest(clashes: &[(bool, u16)]) -> Result<(), u16> {
    match clashes.iter().find(|(clash, _)| *clash) {
        Some((_, column)) => Err(*column),
        None => Ok(()),
    }
}

#[derive(Debug)]
pub struct Pid {
    /// TYPE, STYPE, APID, PI1_VAL, PI2_VAL.
    pub numbers: [i64; 5],
    pub spid: i64,
    pub valid: bool,
}

impl Pid {
    /// 01: "N rows have no key and are never named."
    pub fn spid_key(&self) -> Option<i64> {
        self.valid.then_some(self.spid)
    }
}

impl<'a> Record<'a> for Pid {
    const SCHEMA: &'static [Column] = schemas::PID;
    type Key = [i64; 5];

    fn read(columns: &Columns<'a>, _: Line<'a>) -> Result<Self, u16> {
        let (pi1, pi2) = (columns.number_or(4, 0), columns.number_or(5, 0));
        Ok(Pid {
            numbers: [columns.number(1), columns.number(2), columns.number(3), pi1, pi2],
            spid: columns.number(6),
            valid: columns.letter_or(13, b'Y') == b'Y',
        })
    }

    fn key(&self) -> Option<Self::Key> {
        self.valid.then_some(self.numbers)
    }
}

/// Where PI1 or PI2 lies.
#[derive(Clone, Copy, Debug)]
pub struct Identification {
    pub offset: i64,
    pub width: i64,
}

impl Identification {
    pub fn unused(self) -> bool {
        self.offset == -1
    }

    fn without_width(self) -> bool {
        !self.unused() && self.width == 0
    }
}

#[derive(Debug)]
pub struct Pic {
    pub service: i64,
    pub subservice: i64,
    pub pi1: Identification,
    pub pi2: Identification,
    pub apid: Option<i64>,
}

impl<'a> Record<'a> for Pic {
    const SCHEMA: &'static [Column] = schemas::PIC;
    type Key = (i64, i64, Option<i64>);

    fn read(columns: &Columns<'a>, _: Line<'a>) -> Result<Self, u16> {
        let pi1 = Identification { offset: columns.number(3), width: columns.number(4) };
        let pi2 = Identification { offset: columns.number(5), width: columns.number(6) };
        lowest(&[(pi1.without_width(), 4), (pi2.without_width(), 6)])?;
        let apid = columns.given(7).map(|_| columns.number(7));
        Ok(Pic { service: columns.number(1), subservice: columns.number(2), pi1, pi2, apid })
    }

    fn key(&self) -> Option<Self::Key> {
        Some((self.service, self.subservice, self.apid))
    }
}

#[derive(Debug)]
pub struct Plf<'a> {
    pub name: &'a [u8],
    pub spid: i64,
    pub offby: i64,
    pub offbi: i64,
    pub nbocc: i64,
    pub lgocc: i64,
}

impl<'a> Record<'a> for Plf<'a> {
    const SCHEMA: &'static [Column] = schemas::PLF;
    type Key = (&'a [u8], i64);

    fn read(columns: &Columns<'a>, _: Line<'a>) -> Result<Self, u16> {
        let (nbocc, lgocc) = (columns.number_or(5, 1), columns.number_or(6, 0));
        lowest(&[(nbocc > 1 && lgocc == 0, 6)])?;
        Ok(Plf {
            name: columns.text(1),
            spid: columns.number(2),
            offby: columns.number(3),
            offbi: columns.number(4),
            nbocc,
            lgocc,
        })
    }

    fn key(&self) -> Option<Self::Key> {
        Some((self.name, self.spid))
    }
}

#[derive(Debug)]
pub struct Pcf<'a> {
    pub name: &'a [u8],
    pub ptc: i64,
    pub pfc: i64,
    /// The field's width in bits.
    pub width: i64,
    pub valid: Option<&'a [u8]>,
    pub categ: u8,
    pub natur: u8,
    pub curtx: Option<&'a [u8]>,
    pub valpar: i64,
}

impl Pcf<'_> {
    pub fn is_integer(&self) -> bool {
        (1..=4).contains(&self.ptc)
    }

    /// 02, P5: "plf NAME may name a pcf row of NATUR R or C".
    pub fn is_locatable(&self) -> bool {
        matches!(self.natur, b'R' | b'C')
    }

    pub fn is_real(&self) -> bool {
        self.ptc == 5
    }

    pub fn is_string(&self) -> bool {
        self.ptc == 7 || self.ptc == 8
    }
}

impl<'a> Record<'a> for Pcf<'a> {
    const SCHEMA: &'static [Column] = schemas::PCF;
    type Key = &'a [u8];

    fn read(columns: &Columns<'a>, _: Line<'a>) -> Result<Self, u16> {
        let row = Pcf {
            name: columns.text(1),
            ptc: columns.number(5),
            pfc: columns.number(6),
            width: field_width(columns.number(5), columns.number(6)).ok_or(6u16)?,
            valid: columns.given(8),
            categ: columns.letter(10),
            natur: columns.letter(11),
            curtx: columns.given(12),
            valpar: columns.number_or(18, 1),
        };
        lowest(&[(category_clash(&row), 10), (curve_clash(&row), 12)])?;
        Ok(row)
    }

    fn key(&self) -> Option<Self::Key> {
        Some(self.name)
    }
}

/// 01: "Field widths by type", in bits.
pub fn field_width(ptc: i64, pfc: i64) -> Option<i64> {
    match (ptc, pfc) {
        (1, 0) => Some(1),
        (2 | 6, 1..=32) => Some(pfc),
        (3 | 4, 0..=12) => Some(pfc + 4),
        (3 | 4, 13) => Some(24),
        (3 | 4, 14) => Some(32),
        // 02, P6: "PFC 1 and 2 are IEEE 754 single and double", "PFC 3 and 4 are MIL-STD-1750A in 32 and 48 bits".
        (5, 1 | 3) => Some(32),
        (5, 2) => Some(64),
        (5, 4) => Some(48),
        (7 | 8, 1..=255) => Some(8 * pfc),
        _ => None,
    }
}

/// 01: "T needs PTC 8 and PTC 8 needs T; S needs PTC 1–4".
fn category_clash(row: &Pcf) -> bool {
    (row.categ == b'T') != (row.ptc == 8) || (row.categ == b'S' && !row.is_integer())
}

/// 01: "S without, T with, or N with another PTC".
fn curve_clash(row: &Pcf) -> bool {
    match row.categ {
        b'S' => row.curtx.is_none(),
        b'T' => row.curtx.is_some(),
        _ => row.curtx.is_some() && !row.is_integer(),
    }
}

#[derive(Debug)]
pub struct Caf<'a> {
    pub numbr: &'a [u8],
    pub ncurve: i64,
    /// P, or F.
    pub inter: u8,
}

impl<'a> Record<'a> for Caf<'a> {
    const SCHEMA: &'static [Column] = schemas::CAF;
    type Key = &'a [u8];

    fn read(columns: &Columns<'a>, _: Line<'a>) -> Result<Self, u16> {
        lowest(&[(columns.letter(3) == b'R', 3), (columns.letter(4) == b'R', 4)])?;
        Ok(Caf { numbr: columns.text(1), ncurve: columns.number(7), inter: columns.letter_or(8, b'F') })
    }

    fn key(&self) -> Option<Self::Key> {
        Some(self.numbr)
    }
}

#[derive(Debug)]
pub struct Cap<'a> {
    pub numbr: &'a [u8],
    pub x: i64,
    pub y: i64,
}

impl<'a> Record<'a> for Cap<'a> {
    const SCHEMA: &'static [Column] = schemas::CAP;
    type Key = (&'a [u8], i64);

    fn read(columns: &Columns<'a>, _: Line<'a>) -> Result<Self, u16> {
        Ok(Cap { numbr: columns.text(1), x: columns.number(2), y: columns.number(3) })
    }

    fn key(&self) -> Option<Self::Key> {
        Some((self.numbr, self.x))
    }
}

#[derive(Debug)]
pub struct Txf<'a> {
    pub numbr: &'a [u8],
    pub nalias: i64,
}

impl<'a> Record<'a> for Txf<'a> {
    const SCHEMA: &'static [Column] = schemas::TXF;
    type Key = &'a [u8];

    fn read(columns: &Columns<'a>, _: Line<'a>) -> Result<Self, u16> {
        lowest(&[(columns.letter(3) == b'R', 3)])?;
        Ok(Txf { numbr: columns.text(1), nalias: columns.number(4) })
    }

    fn key(&self) -> Option<Self::Key> {
        Some(self.numbr)
    }
}

#[derive(Debug)]
pub struct Txp<'a> {
    pub numbr: &'a [u8],
    pub from: i64,
    pub to: i64,
    /// The byte of the table at which ALTXT starts, and its length.
    pub start: usize,
    pub length: usize,
}

impl<'a> Record<'a> for Txp<'a> {
    const SCHEMA: &'static [Column] = schemas::TXP;
    type Key = (&'a [u8], i64);

    fn read(columns: &Columns<'a>, line: Line<'a>) -> Result<Self, u16> {
        let (from, to) = (columns.number(2), columns.number(3));
        lowest(&[(from > to, 3)])?;
        let length = columns.text(4).len();
        // ALTXT is the last column.
        let start = line.start + line.bytes.len() - length;
        Ok(Txp { numbr: columns.text(1), from, to, start, length })
    }

    fn key(&self) -> Option<Self::Key> {
        Some((self.numbr, self.from))
    }
}

#[derive(Debug)]
pub struct Ocf<'a> {
    pub name: &'a [u8],
    pub nbchck: i64,
    pub nbool: i64,
    /// U, or C.
    pub inter: u8,
}

impl<'a> Record<'a> for Ocf<'a> {
    const SCHEMA: &'static [Column] = schemas::OCF;
    type Key = &'a [u8];

    fn read(columns: &Columns<'a>, _: Line<'a>) -> Result<Self, u16> {
        lowest(&[(columns.letter(5) != b'I', 5)])?;
        Ok(Ocf {
            name: columns.text(1),
            nbchck: columns.number(2),
            nbool: columns.number(3),
            inter: columns.letter(4),
        })
    }

    fn key(&self) -> Option<Self::Key> {
        Some(self.name)
    }
}

#[derive(Debug)]
pub struct Ocp<'a> {
    pub name: &'a [u8],
    pub pos: i64,
    /// S, or H.
    pub severity: u8,
    pub low: i64,
    pub high: i64,
    pub rlchk: Option<&'a [u8]>,
    pub valpar: i64,
}

impl<'a> Record<'a> for Ocp<'a> {
    const SCHEMA: &'static [Column] = schemas::OCP;
    type Key = (&'a [u8], i64);

    fn read(columns: &Columns<'a>, _: Line<'a>) -> Result<Self, u16> {
        let severity = columns.letter(3);
        let (low, high) = (columns.number(4), columns.number(5));
        lowest(&[(!b"SH".contains(&severity), 3), (low > high, 5)])?;
        Ok(Ocp {
            name: columns.text(1),
            pos: columns.number(2),
            severity,
            low,
            high,
            rlchk: columns.given(6),
            valpar: columns.number_or(7, 1),
        })
    }

    fn key(&self) -> Option<Self::Key> {
        Some((self.name, self.pos))
    }
}

#[derive(Debug)]
pub struct Mcf<'a> {
    pub ident: &'a [u8],
    pub polynomial: Polynomial,
}

impl<'a> Record<'a> for Mcf<'a> {
    const SCHEMA: &'static [Column] = schemas::MCF;
    type Key = &'a [u8];

    fn read(columns: &Columns<'a>, _: Line<'a>) -> Result<Self, u16> {
        let double = |column: u16| match columns.given(column.into()).map(Coefficient::read) {
            None => Ok(0.0),
            Some(Ok(coefficient)) => Ok(coefficient.double()),
            // None is left here, since the schema takes no such text.
            Some(Err(_)) => Err(column),
        };
        let coefficients = [double(3)?, double(4)?, double(5)?, double(6)?, double(7)?];
        Ok(Mcf { ident: columns.text(1), polynomial: Polynomial(coefficients) })
    }

    fn key(&self) -> Option<Self::Key> {
        Some(self.ident)
    }
}
