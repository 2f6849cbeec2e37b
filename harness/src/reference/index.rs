//! 02, P4: an index beside the tables, and identification by a search of it.

use std::cmp::Ordering;

use super::judging::Judged;
use super::packets::{five_numbers, header, Identity};
use super::refusals::{refuse, Refusal};
use super::rows::Pid;

/// 02, P4: "exactly the good VALID Y rows, rising by the five key numbers in column order". Rows count from 1.
pub fn index(judged: &Judged) -> Vec<u16> {
    let mut rows: Vec<(usize, &Pid)> = judged.pid.good_rows().filter(|(_, row)| row.valid).collect();
    rows.sort_by_key(|(_, row)| row.numbers);
    rows.iter().map(|(at, _)| *at as u16 + 1).collect()
}

/// The index, where a list of so many entries has room for it.
pub fn make(judged: &Judged, room: usize) -> Result<Vec<u16>, Refusal> {
    let index = index(judged);
    if room < index.len() {
        return refuse(3);
    }
    Ok(index)
}

/// 02, P4: "The answer, 25 included, … tells how many entries were compared".
#[derive(Debug, PartialEq)]
pub struct Search {
    pub identity: Result<Identity, Refusal>,
    pub compared: usize,
}

/// 02, P4: "refused with 40, next after 1 and 2, unless it is exactly" the index.
pub fn search(judged: &Judged, packet: &[u8], list: &[u16]) -> Result<Search, Refusal> {
    if list != index(judged) {
        return refuse(40);
    }
    let numbers = five_numbers(judged, packet, &header(packet)?)?;
    let entries: Vec<Entry> = list.iter().map(|&row| Entry::of(judged, row)).collect();
    let (found, compared) = search_entries(&entries, numbers);
    let identity = match found {
        Some(Entry { row, spid, .. }) => Ok(Identity { row, spid, numbers }),
        None => refuse(25),
    };
    Ok(Search { identity, compared })
}

/// A pid row by its number, from 1.
#[derive(Clone, Copy)]
struct Entry {
    row: usize,
    spid: i64,
    numbers: [i64; 5],
}

impl Entry {
    fn of(judged: &Judged, row: u16) -> Entry {
        let row = usize::from(row);
        let pid = judged.pid.rows[row - 1].fields.as_ref().expect("an entry of the index is a good row");
        Entry { row, spid: pid.spid, numbers: pid.numbers }
    }
}

/// 02, P4: "Of n entries a search compares the one at n/2 rounded down, from 0, and ends there if equal, else goes on
/// with those before or after it." What is found, and how many entries were compared.
fn search_entries(entries: &[Entry], numbers: [i64; 5]) -> (Option<Entry>, usize) {
    if entries.is_empty() {
        return (None, 0);
    }
    let middle = entries.len() / 2;
    let (found, compared) = match numbers.cmp(&entries[middle].numbers) {
        Ordering::Equal => (Some(entries[middle]), 0),
        Ordering::Less => search_entries(&entries[..middle], numbers),
        Ordering::Greater => search_entries(&entries[middle + 1..], numbers),
    };
    (found, compared + 1)
}

#[cfg(test)]
mod tests {
    use super::*;

    fn entries(count: usize) -> Vec<Entry> {
        (0..count)
            .map(|at| Entry { row: at + 1, spid: 0, numbers: [0, 2 * at as i64 + 1, 0, 0, 0] })
            .collect()
    }

    fn compared(count: usize, stype: i64) -> (bool, usize) {
        let (found, compared) = search_entries(&entries(count), [0, stype, 0, 0, 0]);
        (found.is_some(), compared)
    }

    #[test]
    fn the_entry_at_half_is_compared_first() {
        assert_eq!(compared(0, 1), (false, 0));
        // of two entries, 1 and 3, the second comes first
        assert_eq!([1, 3].map(|stype| compared(2, stype)), [(true, 2), (true, 1)]);
        assert_eq!([0, 2, 4].map(|stype| compared(2, stype)), [(false, 2), (false, 2), (false, 1)]);
        assert_eq!([1, 3, 5].map(|stype| compared(3, stype)), [(true, 2), (true, 1), (true, 2)]);
        assert_eq!(
            [1, 3, 5, 7].map(|stype| compared(4, stype)),
            [(true, 3), (true, 2), (true, 1), (true, 2)]
        );
    }

    /// 02, P4: "never over 11".
    #[test]
    fn at_most_eleven_are_compared() {
        let most = |count: usize| (0..=2 * count as i64).map(|stype| compared(count, stype).1).max();
        assert_eq!([1, 511, 512, 1_023, 1_024].map(most), [1, 9, 10, 10, 11].map(Some));
    }
}
