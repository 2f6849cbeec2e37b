//! Tables, packets and limit states to ask about.

pub mod consistent;
pub mod full;
pub mod hostile;
pub mod indexes;
pub mod mutations;
pub mod packets;
pub mod sets;
pub mod spelling;
pub mod states;

use crate::random::Random;
use crate::reference::judging::TABLES;
use crate::reference::schemas::{Kind, SCHEMAS};
use crate::reference::Tables;

/// A row as its columns.
pub type Columns = Vec<Vec<u8>>;

/// Eleven tables as rows of columns, in their order.
pub type RowSet = [Vec<Columns>; TABLES];

/// Eleven tables as bytes.
pub type ByteSet = [Vec<u8>; TABLES];

pub const PID: usize = 0;
pub const PIC: usize = 1;
pub const PLF: usize = 2;
pub const PCF: usize = 3;
pub const CAF: usize = 4;
pub const CAP: usize = 5;
pub const TXF: usize = 6;
pub const TXP: usize = 7;
pub const OCF: usize = 8;
pub const OCP: usize = 9;
pub const MCF: usize = 10;

pub fn borrowed(set: &ByteSet) -> Tables<'_> {
    std::array::from_fn(|table| set[table].as_slice())
}

/// A row of a table: the columns given, counted from 1, and of the rest those of text now and then filled.
pub fn row(random: &mut Random, table: usize, given: &[(usize, Vec<u8>)]) -> Columns {
    let schema = SCHEMAS[table];
    let mut columns: Columns = vec![Vec::new(); schema.len()];
    for (column, text) in given {
        columns[column - 1].clone_from(text);
    }
    let free =
        |at: usize| matches!(schema[at].kind, Kind::Text) && given.iter().all(|(column, _)| column - 1 != at);
    for at in (0..schema.len()).filter(|&at| free(at)) {
        if random.chance(10) {
            columns[at] = spelling::text(random, schema[at].width);
        }
    }
    columns
}

pub fn line(columns: &Columns) -> Vec<u8> {
    let mut bytes = columns.join(&b'\t');
    bytes.push(b'\n');
    bytes
}

pub fn rendered(rows: &RowSet) -> ByteSet {
    std::array::from_fn(|table| rows[table].iter().flat_map(line).collect())
}
