//! Full tables that are made to cost: what a symbol table, counts and names could be slow on.

use super::full::{full_set, Shape};
use super::{ByteSet, CAF, MCF, PCF, TXF};

const FULL: Shape = Shape { rows: 1_024, chain: 16 };

/// Each with what makes it hostile.
pub fn hostile_sets() -> [(&'static str, ByteSet); 3] {
    let set = full_set(FULL);
    let colliding = colliding(2 * FULL.rows);
    [
        (
            "all names of one bucket, alike in their last bytes",
            renamed(&set, |_, _, name| collide(&colliding, name)),
        ),
        (
            "all rows of a table with one name, of caf and mcf the same",
            renamed(&set, |_, _, name| vec![letter_of(name); name.len()]),
        ),
        ("all names lead nowhere", renamed(&set, estrange)),
    ]
}

/// The set with other names of parameters and curves, by the table and the column, from 0, that each stands in.
fn renamed(set: &ByteSet, rename: impl Fn(usize, usize, &[u8]) -> Vec<u8>) -> ByteSet {
    let is_name = |text: &[u8]| match text {
        [b'P', rest @ ..] => rest.len() == 7 && rest.iter().all(u8::is_ascii_digit),
        [b'C' | b'M', rest @ ..] => rest.len() == 9 && rest.iter().all(u8::is_ascii_digit),
        _ => false,
    };
    let column = |table: usize, at: usize, text: &[u8]| match is_name(text) {
        true => rename(table, at, text),
        false => text.to_vec(),
    };
    let line = |table: usize, line: &[u8]| {
        let columns = line.split(|&byte| byte == b'\t').enumerate();
        columns.map(|(at, text)| column(table, at, text)).collect::<Vec<_>>().join(&b'\t')
    };
    let lines = |table: usize| set[table].split(|&byte| byte == b'\n');
    std::array::from_fn(|table| lines(table).map(|text| line(table, text)).collect::<Vec<_>>().join(&b'\n'))
}

/// What pcf, caf, txf and mcf hold is held under another letter than it is named by.
fn estrange(table: usize, at: usize, name: &[u8]) -> Vec<u8> {
    let held = at == 0 && [PCF, CAF, TXF, MCF].contains(&table);
    let letter = if held { b'X' } else { name[0] };
    [&[letter], &name[1..]].concat()
}

/// The letter of a name's key space: caf and mcf have one.
fn letter_of(name: &[u8]) -> u8 {
    if name[0] == b'P' {
        b'P'
    } else {
        b'C'
    }
}

/// The name of a number, as long as it was: four letters that go with the number, and the same bytes after them.
/// Those of mcf are none of caf's.
fn collide(colliding: &[[u8; 4]], name: &[u8]) -> Vec<u8> {
    let number: usize = std::str::from_utf8(&name[1..]).unwrap().parse().unwrap();
    let first = if name[0] == b'M' { FULL.rows } else { 0 };
    let mut new = vec![letter_of(name); name.len()];
    new[..4].copy_from_slice(&colliding[first + number]);
    new
}

/// Letters that, with `PPPP` or `CCCC` after them, make words of one remainder, as the library's buckets go by them.
fn colliding(many: usize) -> Vec<[u8; 4]> {
    let letter = |at: usize| b"ABCDEFGHIJKLMNOPQRSTUVWXYZabcdefghijklmnopqrstuvwxyz0123456789"[at % 62];
    let word = |letters: &[u8; 4]| u64::from(u32::from_be_bytes(*letters)) << 32;
    let candidates =
        (0..62usize.pow(4)).map(|n| [letter(n / 238_328), letter(n / 3_844), letter(n / 62), letter(n)]);
    candidates.filter(|letters| word(letters) % 65_521 % 1_021 == 0).take(many).collect()
}
