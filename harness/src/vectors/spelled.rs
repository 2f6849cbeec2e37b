//! Answers as the vector files spell them.

use super::text::BEYOND;
use crate::answers::Answer;
use crate::reference::curves::{curve_at, Point};
use crate::reference::faults::Position;
use crate::reference::numbers;
use crate::reference::packets::{self, Raw};
use crate::reference::rows::field_width;
use crate::reference::schemas::{Kind, Verdict, CAP, GOOD, TXP};

/// What lent cells and positions hold before import, and no verdict and no position is: 255:255@65535.
pub const UNWRITTEN: u16 = 0xFFFF;

/// The refusal in an answer, or its values spelled out.
fn unless_refused(answer: &Answer, spell: impl FnOnce() -> String) -> String {
    match answer.result {
        0 => spell(),
        result => format!("refused {} at {}", result >> 32, result & 0xFFFF_FFFF),
    }
}

/// The counts or the refusal, and the cells and positions up to the last that was written: none after a refusal.
pub fn import(answer: &Answer, cells: &[Verdict], positions: &[Position]) -> String {
    let [rows, good, ..] = answer.places;
    let counts = unless_refused(answer, || format!("{rows} rows, {good} good:"));
    let written = last_written(cells).max(last_written(positions));
    (0..written).fold(counts, |spelled, at| spelled + " " + &cell_at(cells, positions, at))
}

fn last_written(buffer: &[u16]) -> usize {
    buffer.iter().rposition(|&word| word != UNWRITTEN).map_or(0, |last| last + 1)
}

/// A cell, and its position where that isn't 0.
fn cell_at(cells: &[Verdict], positions: &[Position], at: usize) -> String {
    let held = |buffer: &[u16]| buffer.get(at).copied().unwrap_or(UNWRITTEN);
    let cell = match held(cells) {
        GOOD => "good".to_string(),
        verdict => format!("{}:{}", verdict / 256, verdict % 256),
    };
    match held(positions) {
        0 => cell,
        position => format!("{cell}@{position}"),
    }
}

/// The cell of a table's only row. Where it isn't one row, this is what import answers.
pub fn row(answer: &Answer, cells: &[Verdict], positions: &[Position]) -> String {
    let written = last_written(cells).max(last_written(positions));
    match (answer.result, answer.places[0], written) {
        (0, 1, 1) => cell_at(cells, positions, 0),
        _ => import(answer, cells, positions),
    }
}

pub fn identify(answer: &Answer) -> String {
    let [row, spid, apid, service, subservice, pi1, pi2, _] = answer.places;
    unless_refused(answer, || {
        format!(
            "row {row}, SPID {spid}, APID {apid}, type {service}, subtype {subservice}, PI1 {pi1}, PI2 {pi2}"
        )
    })
}

/// How many rows the index has, and the first six of them.
pub fn index(answer: &Answer, rows: &[u16]) -> String {
    unless_refused(answer, || {
        let [count, ..] = answer.places;
        let told = rows.iter().take(count as usize).take(6);
        told.fold(format!("{count} rows:"), |spelled, row| format!("{spelled} {row}"))
    })
}

/// The count of entries compared is told by 25 too.
pub fn search(answer: &Answer) -> String {
    const NO_PID_ROW: u64 = 25 << 32;
    match (answer.result, answer.places) {
        (0, [row, spid, .., compared]) => format!("row {row}, SPID {spid}, compared {compared}"),
        (NO_PID_ROW, [compared, ..]) => format!("refused 25 at 0, compared {compared}"),
        _ => unless_refused(answer, String::new),
    }
}

pub fn extract(answer: &Answer) -> String {
    let validity = |valid| if valid == 1 { "valid" } else { "invalid" };
    unless_refused(answer, || match answer.places {
        [0, value, valid, ..] => format!("{value}, {}", validity(valid)),
        [2, bits, width, valid, ..] => format!("{}, {}", real(bits, width), validity(valid)),
        [_, start, length, valid, ..] => format!("{}, {}", part(start, length), validity(valid)),
    })
}

fn part(start: i64, length: i64) -> String {
    format!("string from {start}, {length} bytes")
}

fn real(bits: i64, width: i64) -> String {
    format!("{width} bits {bits:016X}")
}

/// A text is spelled with its bytes, a part of txp, and a double by its bits.
pub fn engineer(answer: &Answer, txp: &[u8]) -> String {
    unless_refused(answer, || match answer.places {
        [0, value, ..] => value.to_string(),
        [1, start, length, ..] => part(start, length),
        [3, bits, ..] => format!("double {bits:016X}"),
        [4, bits, width, ..] => real(bits, width),
        [_, row, start, length, ..] => {
            let text = txp.get(start as usize..(start + length) as usize).unwrap_or_default();
            let text = String::from_utf8_lossy(text);
            format!("text of row {row} from {start}, {length} bytes: {text}")
        }
    })
}

/// An accepted packet ends fresh, so a state that is still fresh is never the answer.
pub fn step(answer: &Answer) -> String {
    let [fresh, apid, count, run, announced, ..] = answer.places;
    let still = if fresh == 1 { "fresh, " } else { "" };
    unless_refused(answer, || format!("{still}APID {apid}, count {count}, run {run}, announced {announced}"))
}

pub fn number(text: &[u8]) -> String {
    match numbers::number(text) {
        None => "no number".to_string(),
        Some(value) if value.unsigned_abs() >= BEYOND as u64 => "beyond".to_string(),
        Some(value) => value.to_string(),
    }
}

pub fn width(ptc: u64, pfc: u64) -> String {
    let known = |number: u64| i64::try_from(number).ok();
    match known(ptc).zip(known(pfc)).and_then(|(ptc, pfc)| field_width(ptc, pfc)) {
        Some(bits) => format!("{bits} bits"),
        None => "none".to_string(),
    }
}

pub fn unsigned(packet: &[u8], bit: u64, width: u64) -> String {
    field(width, |width| packets::unsigned(packet, bit as usize, width))
}

pub fn signed(packet: &[u8], bit: u64, width: u64) -> String {
    field(width, |width| packets::signed(packet, bit as usize, width))
}

fn field<T: ToString>(width: u64, read: impl FnOnce(usize) -> Option<T>) -> String {
    if !(1..=64).contains(&width) {
        return "no width".to_string();
    }
    read(width as usize).map_or("outside".to_string(), |value| value.to_string())
}

pub fn string(packet: &[u8], bit: u64, bytes: u64) -> String {
    if bytes == 0 {
        return "no bytes".to_string();
    }
    match packets::string(packet, bit as usize, bytes as usize) {
        Ok(Raw::Text { start, length }) => part(start, length),
        Ok(_) => unreachable!("a string is a part"),
        Err(refusal) if refusal.number == 28 => "outside".to_string(),
        Err(_) => "off a byte".to_string(),
    }
}

/// The line through two points: XVALS and YVALS of cap, and a raw value as FROM of txp has it.
pub fn line(from: [i64; 2], to: [i64; 2], x: i64) -> String {
    let on_curve = |point: [i64; 2]| in_range(&CAP[1].kind, point[0]) && in_range(&CAP[2].kind, point[1]);
    if !on_curve(from) || !on_curve(to) || !in_range(&TXP[1].kind, x) || from[0] >= to[0] {
        return "no line".to_string();
    }
    let points = [from, to].map(|[x, y]| Point { x, y });
    curve_at(points.to_vec(), true, x).map_or("out of range".to_string(), |value| value.to_string())
}

fn in_range(kind: &Kind, value: i64) -> bool {
    matches!(*kind, Kind::Number { least, greatest } if (least..=greatest).contains(&value))
}
