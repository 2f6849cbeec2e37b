//! Tables of a given number of rows each, the same at every call: what speed is measured on.

use super::{line, ByteSet, Columns};
use crate::reference::schemas::{Kind, SCHEMAS};

/// 1,024 lines of this many bytes, LF and all, fill a table.
const LINE: usize = 64;

/// The APID, PI1 and the raw value of every parameter in the packet.
const APID: usize = 10;
const PI1: u8 = 7;
const RAW: u8 = 5;

/// How many rows each table has, and how many pcf rows a VALID chain.
#[derive(Clone, Copy)]
pub struct Shape {
    pub rows: usize,
    pub chain: usize,
}

/// Eleven tables of that many rows. Half the curves have no points, since each needs two, and every eighth
/// parameter has texts and so no limits; all other rows are good. Every eighth has a polynomial and raw limits.
pub fn full_set(shape: Shape) -> ByteSet {
    let row =
        [pid_row, pic_row, plf_row, pcf_row, caf_row, cap_row, txf_row, txp_row, ocf_row, ocp_row, mcf_row];
    let bytes = |table: usize, at: usize| line(&padded(table, &row[table](shape, at)));
    std::array::from_fn(|table| (0..shape.rows).flat_map(|at| bytes(table, at)).collect())
}

/// The columns given, counted from 1; the other columns of text are filled until the line is long enough.
fn padded(table: usize, given: &Given) -> Columns {
    let schema = SCHEMAS[table];
    let mut columns: Columns = vec![Vec::new(); schema.len()];
    for (column, text) in given {
        columns[column - 1] = text.clone().into_bytes();
    }
    let mut room = LINE.saturating_sub(line(&columns).len());
    let free = |at: usize| given.iter().all(|(column, _)| column - 1 != at);
    for (at, column) in schema.iter().enumerate() {
        if matches!(column.kind, Kind::Text) && free(at) {
            let filled = room.min(column.width);
            columns[at] = vec![b'x'; filled];
            room -= filled;
        }
    }
    columns
}

type Given = Vec<(usize, String)>;

fn given(columns: &[(usize, &dyn ToString)]) -> Given {
    columns.iter().map(|(column, value)| (*column, value.to_string())).collect()
}

fn parameter(at: usize) -> String {
    format!("P{at:07}")
}

fn curve(at: usize) -> String {
    format!("C{at:09}")
}

fn polynomial(at: usize) -> String {
    format!("M{at:09}")
}

/// Every eighth parameter has texts, every eighth a polynomial, the others a curve.
fn has_texts(at: usize) -> bool {
    at % 8 == 7
}

fn has_polynomial(at: usize) -> bool {
    at % 8 == 3
}

fn pid_row(_: Shape, at: usize) -> Given {
    given(&[(1, &(at / 256)), (2, &(at % 256)), (3, &APID), (4, &PI1), (6, &(at + 1)), (13, &"Y")])
}

fn pic_row(_: Shape, at: usize) -> Given {
    given(&[(1, &(at / 256)), (2, &(at % 256)), (3, &10), (4, &8), (5, &-1), (6, &0), (7, &APID)])
}

/// All parameters lie in the packet of the last pid row.
fn plf_row(shape: Shape, at: usize) -> Given {
    let byte = 16 + 4 * at;
    given(&[(1, &parameter(at)), (2, &shape.rows), (3, &byte), (4, &0), (5, &2), (6, &16)])
}

fn pcf_row(shape: Shape, at: usize) -> Given {
    let valid = if at.is_multiple_of(shape.chain) { String::new() } else { parameter(at - 1) };
    let (categ, curtx) = match at {
        _ if has_texts(at) => ("S", curve(at)),
        _ if has_polynomial(at) => ("N", polynomial(at)),
        _ => ("N", curve(at % (shape.rows / 2))),
    };
    let (name, letter) = (parameter(at), "R");
    let columns: [(usize, &dyn ToString); 8] =
        [(1, &name), (5, &3), (6, &12), (8, &valid), (10, &categ), (11, &letter), (12, &curtx), (18, &RAW)];
    given(&columns)
}

fn caf_row(_: Shape, at: usize) -> Given {
    given(&[(1, &curve(at)), (3, &"I"), (4, &"U"), (5, &"D"), (7, &2), (8, &"P")])
}

fn cap_row(_: Shape, at: usize) -> Given {
    let (x, y) = (1_000_000_000 * (at % 2), 1_000_000_000 - (at % 2) as i64);
    given(&[(1, &curve(at / 2)), (2, &x), (3, &y)])
}

fn txf_row(_: Shape, at: usize) -> Given {
    given(&[(1, &curve(at)), (3, &"U"), (4, &1)])
}

fn txp_row(_: Shape, at: usize) -> Given {
    given(&[(1, &curve(at)), (2, &0), (3, &4_000_000_000u32), (4, &"ON............")])
}

fn ocf_row(_: Shape, at: usize) -> Given {
    let inter = if has_polynomial(at) { "U" } else { "C" };
    given(&[(1, &parameter(at)), (2, &3), (3, &1), (4, &inter), (5, &"I")])
}

fn ocp_row(_: Shape, at: usize) -> Given {
    let (name, released) = (parameter(at), parameter(0));
    let (low, high) = (-1_000_000_000, 999_999_000);
    given(&[(1, &name), (2, &1), (3, &"H"), (4, &low), (5, &high), (6, &released), (7, &RAW)])
}

fn mcf_row(_: Shape, at: usize) -> Given {
    let first = format!("-273.{at:04}");
    given(&[
        (1, &polynomial(at)),
        (3, &first),
        (4, &"1.5E-3"),
        (5, &"-2.25e-7"),
        (6, &"1E-12"),
        (7, &"-3e-17"),
    ])
}

/// The packet of the last pid row.
pub fn full_packet(shape: Shape) -> Vec<u8> {
    let mut packet: Vec<u8> = [0, RAW].repeat(8 + 2 * shape.rows);
    let length = packet.len() as u16 - 7;
    let last = shape.rows - 1;
    packet[..6].copy_from_slice(&[0x08, APID as u8, 0xC0, 1, (length >> 8) as u8, length as u8]);
    packet[7..11].copy_from_slice(&[(last / 256) as u8, (last % 256) as u8, 0, PI1]);
    packet
}

/// The last parameter that has a curve and limits.
pub fn last_parameter(shape: Shape) -> String {
    last(shape, |at| !has_texts(at) && !has_polynomial(at))
}

/// The last parameter that has a polynomial.
pub fn last_by_polynomial(shape: Shape) -> String {
    last(shape, has_polynomial)
}

fn last(shape: Shape, asked: impl Fn(usize) -> bool) -> String {
    parameter((0..shape.rows).rev().find(|&at| asked(at)).expect("a shape has such rows"))
}
