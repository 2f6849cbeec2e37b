//! Mistakes: of columns, rows, names and bytes.

use super::spelling::{coefficient, misspelt_coefficient, misspelt_number, number, text};
use super::{row, ByteSet, Columns, RowSet, CAF, CAP, MCF, OCF, OCP, PCF, PIC, PID, PLF, TXF, TXP};
use crate::random::Random;
use crate::reference::judging::TABLES;
use crate::reference::schemas::{Column, Kind, SCHEMAS};

/// Texts that look like numbers, most of them none.
const SPELLINGS: [&[u8]; 16] = [
    b"08", b"-07", b"-00", b"+1", b"1 ", b" 1", b"0x", b"0xG", b"-0x1", b"-", b"00", b"007", b"-0", b"--1",
    b"1.0", b"9A",
];

/// Texts that look like coefficients, with `|` between them: some are, some are none, some are out of range.
const COEFFICIENTS: &str = "5|5.|1.e5|0.5|08|-0|1E-05|-0.0e-9|.5|-.5|+1|1e|1E|1e+|1e-|1..2|1.2.3|-|--1|1 | 1|0x1|1,5|\
    1e5.|1e5.0|1e 5|e5|.|inf|NaN|1e22|1e23|1e-22|1e-23|1.0e23|1.0e24|1.0e-21|1.0e-22|0e23|1e0000000022|1e-000000023|\
    99999999999999|0.000000000001|9999999999e-22|0.1|-273.15|1e4294967297|1e-4294967274|1e9999999999";

/// Bytes that divide lines or columns, stand beside the allowed range, or are foreign.
const BYTES: [u8; 10] = [b'\n', b'\t', b'\r', 0x00, 0x1F, 0x20, 0x7E, 0x7F, 0x80, 0xFF];

/// The columns that count rows: caf, txf, ocf.
const COUNTS: [(usize, usize); 3] = [(CAF, 7), (TXF, 4), (OCF, 3)];

/// The columns that name rows: table, column, and the table and column of the key they name. The last two are no
/// names: a caf and an mcf row get one key.
const NAMES: [(usize, usize, usize, usize); 17] = [
    (PLF, 1, PCF, 1),
    (PLF, 2, PID, 6),
    (PCF, 8, PCF, 1),
    (PCF, 8, PCF, 1),
    (PCF, 8, PCF, 1),
    (PCF, 12, CAF, 1),
    (PCF, 12, TXF, 1),
    (CAP, 1, CAF, 1),
    (TXP, 1, TXF, 1),
    (OCF, 1, PCF, 1),
    (OCP, 1, OCF, 1),
    (OCP, 6, PCF, 1),
    (PCF, 12, MCF, 1),
    (PCF, 12, MCF, 1),
    (CAP, 1, MCF, 1),
    (MCF, 1, CAF, 1),
    (CAF, 1, MCF, 1),
];

/// Texts of columns.
type Texts = &'static [(usize, &'static [u8])];

/// Columns that contradict each other twice, or name two rows that aren't there.
const CLASHES: [(usize, Texts); 8] = [
    (PIC, &[(3, b"5"), (4, b"0"), (5, b"5"), (6, b"0")]),
    (PLF, &[(1, b"?"), (2, b"99")]),
    (PCF, &[(5, b"3"), (6, b"99"), (10, b"T"), (12, b"?")]),
    (PCF, &[(5, b"8"), (6, b"1"), (10, b"N"), (12, b"?")]),
    (PCF, &[(8, b"?"), (12, b"?")]),
    (CAF, &[(3, b"R"), (4, b"R")]),
    (OCP, &[(3, b"E"), (4, b"1"), (5, b"0")]),
    (OCP, &[(1, b"?"), (6, b"?")]),
];

/// What would change a curve, a text or a limit if rows that share a key had a part in it.
const TWINS: [(usize, Texts); 3] =
    [(CAP, &[(3, b"77777")]), (TXP, &[(3, b"99")]), (OCP, &[(3, b"H"), (4, b"-5"), (5, b"-5"), (6, b"")])];

/// One mistake in the rows.
pub fn mutate_rows(random: &mut Random, rows: &mut RowSet) {
    let table = random.below(TABLES);
    match random.below(24) {
        20..=23 => misspell(random, rows),
        0..=5 => change_column(random, rows, table),
        6 => twins(random, rows),
        7 => clash(random, rows),
        8..=9 => copy_row(random, rows, table),
        10 => copy_column(random, rows, table),
        11 => remove_row(random, rows, table),
        12 => change_width(random, rows, table),
        13 => change_count(random, rows),
        14..=16 => rename(random, rows),
        17 => retype(random, rows),
        18 => lengthen(random, rows, table),
        _ => move_row(random, rows, table),
    }
}

/// Sets a column, counted from 1, where the row has it.
fn put(row: &mut Columns, column: usize, text: Vec<u8>) {
    if let Some(changed) = row.get_mut(column - 1) {
        *changed = text;
    }
}

fn change_column(random: &mut Random, rows: &mut RowSet, table: usize) {
    if rows[table].is_empty() {
        rows[table].push(row(random, table, &[]));
    }
    let at = random.below(rows[table].len());
    let column = column_of(random, table);
    let changed = column_text(random, table, column);
    put(&mut rows[table][at], column + 1, changed);
}

/// A number or a coefficient of any table goes wrong, each column alike.
fn misspell(random: &mut Random, rows: &mut RowSet) {
    let is_spelt = |column: &Column| matches!(column.kind, Kind::Number { .. } | Kind::Coefficient);
    let spelt = |table: usize| (0..SCHEMAS[table].len()).filter(move |&at| is_spelt(&SCHEMAS[table][at]));
    let all: Vec<(usize, usize)> =
        (0..TABLES).flat_map(|table| spelt(table).map(move |at| (table, at))).collect();
    let (table, column) = *random.pick(&all);
    if rows[table].is_empty() {
        return;
    }
    let at = random.below(rows[table].len());
    let Column { width, kind, .. } = SCHEMAS[table][column];
    let text = match kind {
        Kind::Coefficient => misspelt_coefficient(random, width),
        _ => misspelt_number(random, width),
    };
    put(&mut rows[table][at], column + 1, text);
}

/// A column of a table, mostly one with a rule beside its width.
fn column_of(random: &mut Random, table: usize) -> usize {
    let ruled = |&at: &usize| SCHEMAS[table][at].mandatory || !matches!(SCHEMAS[table][at].kind, Kind::Text);
    let columns: Vec<usize> = (0..SCHEMAS[table].len()).filter(ruled).collect();
    if random.chance(60) {
        *random.pick(&columns)
    } else {
        random.below(SCHEMAS[table].len())
    }
}

/// A text for a column, right or wrong.
fn column_text(random: &mut Random, table: usize, column: usize) -> Vec<u8> {
    let schema = SCHEMAS[table][column];
    match random.below(10) {
        0 => return Vec::new(),
        1..=2 => return vec![b'1'; schema.width + 1],
        3 => return text(random, schema.width),
        _ => (),
    }
    match schema.kind {
        Kind::Text => text(random, schema.width),
        Kind::Letter(letters) if random.chance(80) => vec![*random.pick(letters)],
        Kind::Letter(_) => vec![*random.pick(b"ynrRxX? 0")],
        Kind::Coefficient if random.chance(60) => {
            let texts: Vec<&str> = COEFFICIENTS.split('|').collect();
            random.pick(&texts).as_bytes().to_vec()
        }
        Kind::Coefficient => coefficient(random, schema.width),
        Kind::Number { .. } if random.chance(20) => random.pick(&SPELLINGS).to_vec(),
        Kind::Number { least, greatest } => {
            let inside = random.between(least, greatest);
            let value = *random.pick(&[least - 1, least, -1, 0, 1, 6, 7, greatest, greatest + 1, inside]);
            number(random, value, schema.width)
        }
    }
}

fn copy_row(random: &mut Random, rows: &mut RowSet, table: usize) {
    if !rows[table].is_empty() {
        let copy = random.pick(&rows[table]).clone();
        let at = random.below(rows[table].len() + 1);
        rows[table].insert(at, copy);
    }
}

/// Two rows more of a curve, a text or a limit, with one key between them.
fn twins(random: &mut Random, rows: &mut RowSet) {
    let (table, columns) = *random.pick(&TWINS);
    if rows[table].is_empty() {
        return;
    }
    let mut twin = random.pick(&rows[table]).clone();
    let key = random.between(0, 99);
    put(&mut twin, 2, number(random, key, 2));
    columns.iter().for_each(|(column, text)| put(&mut twin, *column, text.to_vec()));
    rows[table].extend([twin.clone(), twin]);
}

/// A row gets two mistakes of one reason, of which the lowest column counts.
fn clash(random: &mut Random, rows: &mut RowSet) {
    let (table, columns) = *random.pick(&CLASHES);
    if rows[table].is_empty() {
        return;
    }
    let at = random.below(rows[table].len());
    columns.iter().for_each(|(column, text)| put(&mut rows[table][at], *column, text.to_vec()));
}

/// A column of one row becomes that of another, so that two keys or names meet.
fn copy_column(random: &mut Random, rows: &mut RowSet, table: usize) {
    if rows[table].is_empty() {
        return;
    }
    let (from, to) = (random.below(rows[table].len()), random.below(rows[table].len()));
    let column = random.below(6);
    if let Some(copied) = rows[table][from].get(column).cloned() {
        put(&mut rows[table][to], column + 1, copied);
    }
}

fn remove_row(random: &mut Random, rows: &mut RowSet, table: usize) {
    if !rows[table].is_empty() {
        let at = random.below(rows[table].len());
        rows[table].remove(at);
    }
}

/// A column too many or too few.
fn change_width(random: &mut Random, rows: &mut RowSet, table: usize) {
    if rows[table].is_empty() {
        return;
    }
    let at = random.below(rows[table].len());
    let columns = &mut rows[table][at];
    if random.chance(50) {
        columns.push(Vec::new());
    } else {
        columns.pop();
    }
}

fn change_count(random: &mut Random, rows: &mut RowSet) {
    let (table, column) = *random.pick(&COUNTS);
    if rows[table].is_empty() {
        return;
    }
    let at = random.below(rows[table].len());
    let count = random.between(1, 4);
    put(&mut rows[table][at], column, number(random, count, 2));
}

/// A column that names a row names any row of the table, itself too, of whatever kind.
fn rename(random: &mut Random, rows: &mut RowSet) {
    let (table, column, named, named_column) = *random.pick(&NAMES);
    if rows[table].is_empty() || rows[named].is_empty() {
        return;
    }
    let at = random.below(rows[table].len());
    if let Some(name) = random.pick(&rows[named]).get(named_column - 1).cloned() {
        put(&mut rows[table][at], column, name);
    }
}

/// A pcf row gets a PTC and a PFC at the ends of what the types have.
fn retype(random: &mut Random, rows: &mut RowSet) {
    if rows[PCF].is_empty() {
        return;
    }
    let at = random.below(rows[PCF].len());
    let ptc = random.between(0, 9);
    let pfc = *random.pick(&[0, 1, 12, 13, 14, 15, 32, 33, 255, 256]);
    put(&mut rows[PCF][at], 5, number(random, ptc, 2));
    put(&mut rows[PCF][at], 6, number(random, pfc, 5));
}

/// A line around 512 bytes.
fn lengthen(random: &mut Random, rows: &mut RowSet, table: usize) {
    if rows[table].is_empty() {
        return;
    }
    let at = random.below(rows[table].len());
    let columns = &mut rows[table][at];
    let length: usize = columns.iter().map(|column| column.len() + 1).sum::<usize>() - 1;
    let wanted = random.between(511, 514) as usize;
    if let Some(last) = columns.last_mut() {
        last.resize(last.len() + wanted.saturating_sub(length), b'z');
    }
}

/// A row of one table in another.
fn move_row(random: &mut Random, rows: &mut RowSet, table: usize) {
    let to = random.below(TABLES);
    if !rows[table].is_empty() {
        let moved = random.pick(&rows[table]).clone();
        rows[to].push(moved);
    }
}

/// One mistake in the bytes of a table.
pub fn mutate_bytes(random: &mut Random, set: &mut ByteSet) {
    let table = random.below(TABLES);
    let bytes = &mut set[table];
    let at = random.below(bytes.len());
    match random.below(6) {
        _ if bytes.is_empty() => bytes.extend(noise_line(random)),
        0 => bytes[at] = *random.pick(&BYTES),
        1 => bytes[at] = random.byte(),
        2 => bytes.insert(at, *random.pick(&BYTES)),
        3 => drop(bytes.remove(at)),
        4 => drop(bytes.pop()),
        _ => bytes.truncate(at),
    }
}

/// Bytes without LF: any, or such as rows are made of.
pub fn noise_line(random: &mut Random) -> Vec<u8> {
    let any = random.chance(30);
    let longest = if random.chance(5) { 700 } else { 60 };
    let length = random.below(longest);
    let byte = |_| if any { random.byte() } else { *random.pick(b"\t\t\t\t0011-.exYNRPIUSHTA ") };
    (0..length).map(byte).filter(|&byte| byte != b'\n').collect()
}

/// Tables of noise.
pub fn noise(random: &mut Random) -> ByteSet {
    std::array::from_fn(|_| {
        let lines = random.below(6);
        let mut bytes: Vec<u8> =
            (0..lines).flat_map(|_| [noise_line(random), vec![b'\n']].concat()).collect();
        if random.chance(20) {
            bytes.extend(noise_line(random));
        }
        bytes
    })
}
