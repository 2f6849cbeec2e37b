//! 01, with 02's P1, P2 and P4, as an ordinary Rust program: tables are parsed once and judged once, with vectors and hash maps.

pub mod coefficients;
pub mod curves;
pub mod faults;
pub mod index;
pub mod judging;
pub mod limits;
pub mod lines;
pub mod numbers;
pub mod packets;
pub mod polynomials;
pub mod reach;
pub mod reals;
pub mod refusals;
pub mod rows;
pub mod schemas;
pub mod values;

pub use judging::{Judged, Tables};
pub use refusals::Refusal;

use faults::Position;
use judging::{count_rows, judge};
use refusals::refuse;
use schemas::{Verdict, GOOD};

/// What a finished import writes and returns: a cell and a position for each row.
#[derive(Debug, PartialEq)]
pub struct Imported {
    pub cells: Vec<Verdict>,
    pub positions: Vec<Position>,
    pub good: usize,
}

impl Imported {
    /// Writes both into buffers that have room for them; what is past the rows stays.
    pub fn write(&self, cells: &mut [Verdict], positions: &mut [Position]) {
        cells[..self.cells.len()].copy_from_slice(&self.cells);
        positions[..self.positions.len()].copy_from_slice(&self.positions);
    }
}

/// 01: "A finished import writes one cell per row, in table order, leaves further cells, and returns the
/// counts of rows and of good rows." 02, P2: "a second lent buffer with as many cells …; a short one is refusal 3".
/// `cells` and `positions` are how many of each are lent.
pub fn import(tables: &Tables, cells: usize, positions: usize) -> Result<Imported, Refusal> {
    if cells.min(positions) < count_rows(tables)? {
        return refuse(3);
    }
    let (cells, positions): (Vec<_>, Vec<_>) = judge(tables).cells().into_iter().unzip();
    let good = cells.iter().filter(|&&cell| cell == GOOD).count();
    Ok(Imported { cells, positions, good })
}

/// The tables judged, for packet questions: refusals 1 and 2.
pub fn judged<'a>(tables: &Tables<'a>) -> Result<Judged<'a>, Refusal> {
    count_rows(tables)?;
    Ok(judge(tables))
}
