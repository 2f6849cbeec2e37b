//! Engineering values: curves, polynomials and texts.

use super::curves::{curve_at, Point};
use super::judging::Judged;
use super::packets::{read, Raw};
use super::refusals::{refuse, Refusal};

#[derive(Debug, PartialEq)]
pub enum Value {
    Integer(i64),
    Double(f64),
    /// The part of the packet that a string is.
    String {
        start: i64,
        length: i64,
    },
    /// The bits of a real, and how many, as they were read.
    Real {
        bits: u64,
        width: i64,
    },
    /// ALTXT of a txp row, from 1, as its part of the table.
    Text {
        row: usize,
        start: usize,
        length: usize,
    },
}

pub fn engineer(judged: &Judged, packet: &[u8], name: &[u8], occurrence: usize) -> Result<Value, Refusal> {
    let (reading, kind) = read(judged, packet, name, occurrence)?;
    match (reading.raw, kind.curtx) {
        (Raw::Text { start, length }, _) => Ok(Value::String { start, length }),
        (Raw::Real { bits, width }, _) => Ok(Value::Real { bits, width }),
        (Raw::Integer(raw), None) => Ok(Value::Integer(raw)),
        (Raw::Integer(raw), Some(texts)) if kind.categ == b'S' => text_at(judged, texts, raw),
        (Raw::Integer(raw), Some(curve)) => match judged.mcf.good(&curve) {
            Some((_, row)) => Ok(Value::Double(row.polynomial.at(raw))),
            None => by_curve(judged, curve, raw).map(Value::Integer),
        },
    }
}

/// 01: "CAF_INTER governs."
pub fn by_curve(judged: &Judged, curve: &[u8], raw: i64) -> Result<i64, Refusal> {
    let Some((_, row)) = judged.caf.good(&curve) else { return refuse(30) };
    let rows = judged.cap.good_of(&judged.points, curve);
    let points: Vec<Point> = rows.map(|(_, row)| Point { x: row.x, y: row.y }).collect();
    curve_at(points, row.inter == b'P', raw)
}

/// 01: "A text is that of the greatest FROM not above the raw value, if TO isn't below it."
fn text_at(judged: &Judged, texts: &[u8], raw: i64) -> Result<Value, Refusal> {
    let rows = judged.txp.good_of(&judged.texts, texts);
    let nearest = rows.filter(|(_, row)| row.from <= raw).max_by_key(|(_, row)| row.from);
    match nearest {
        Some((at, row)) if raw <= row.to => {
            Ok(Value::Text { row: at + 1, start: row.start, length: row.length })
        }
        _ => refuse(32),
    }
}
