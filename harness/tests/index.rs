//! The index and searches of it, of tables with any number of packets: every entry, and what lies between them.

use std::thread::Builder;

use harness::answers::{answer, search_answer, Places};
use harness::proved;
use harness::reference::index::{index, search};
use harness::reference::judging::TABLES;
use harness::reference::packets::identify;
use harness::reference::{judged, Tables};

/// 2 MiB that the library asks for, and as much for the reference.
const STACK: usize = 4 << 20;

const PLACES: Places = [7, -7, 77, -77, 777, -777, 0, -1];

/// 02, P4: "never over 11".
const MOST_COMPARED: i64 = 11;

/// Rows of odd numbers, STYPE and TYPE * 256, in an order that isn't theirs; SPID falls as the numbers rise.
fn pid(count: usize) -> Vec<u8> {
    let row = |at: usize| {
        let number = 2 * (at * 7 % count) + 1;
        format!("{}\t{}\t10\t\t\t{}\t\t\t\t\t\t\t\t\t\t\n", number / 256, number % 256, 5_000 - number)
    };
    // 7 and the count have no common factor, so that each row comes once
    assert!(!count.is_multiple_of(7));
    (0..count).flat_map(|at| row(at).into_bytes()).collect()
}

fn packet(number: usize) -> [u8; 9] {
    [0x08, 10, 0xC0, 0, 0, 2, 0, (number / 256) as u8, (number % 256) as u8]
}

/// The most entries that searches for these numbers compare.
fn search_all(count: usize, numbers: impl Iterator<Item = usize>) -> i64 {
    let pid = pid(count);
    let mut tables: Tables = [b""; TABLES];
    tables[0] = &pid;
    let judged = judged(&tables).expect("the tables are taken");
    let mut made = vec![9; count + 1];
    let right = index(&judged);
    assert_eq!(proved::index(&tables, &mut made, PLACES), answer(&Ok(right.clone()), PLACES));
    assert_eq!(made, [&right[..], &[9]].concat());
    numbers.map(|number| compare_search(&tables, &packet(number), &right)).max().unwrap_or(0)
}

/// How many entries a search compares; it and the reference say the same, and what identification says.
fn compare_search(tables: &Tables, packet: &[u8], right: &[u16]) -> i64 {
    let judged = judged(tables).expect("the tables are taken");
    let library = proved::search(tables, packet, right, PLACES);
    assert_eq!(library, search_answer(&search(&judged, packet, right), PLACES), "{packet:?} in {right:?}");
    let identified = answer(&identify(&judged, packet), PLACES);
    assert_eq!(library.result, identified.result);
    if library.result != 0 {
        return library.places[0];
    }
    assert_eq!(library.places[..7], identified.places[..7]);
    library.places[7]
}

#[test]
fn searches_of_every_length() {
    let search = || {
        for count in (1..40).filter(|count| count % 7 != 0) {
            let most = search_all(count, 0..=2 * count);
            assert_eq!(most, i64::from(count.ilog2()) + 1, "{count} entries");
        }
        // the first and the last entries, those around them, and some of the others
        for (count, most) in [(1_023, 10), (1_024, MOST_COMPARED)] {
            let numbers = (0..8).chain((500..2_000).step_by(101)).chain(2 * count - 4..=2 * count);
            assert_eq!(search_all(count, numbers), most, "{count} entries");
        }
    };
    Builder::new().stack_size(STACK).spawn(search).expect("a thread").join().expect("no answer differs");
}

#[test]
fn without_packets_the_empty_list_is_the_index() {
    let tables: Tables = [b""; TABLES];
    let mut rows = [9; 2];
    assert_eq!(proved::index(&tables, &mut rows, PLACES), answer(&Ok(Vec::new()), PLACES));
    assert_eq!(rows, [9; 2]);
    assert_eq!(proved::index(&tables, &mut [], PLACES), answer(&Ok(Vec::new()), PLACES));
    let judged = judged(&tables).expect("the tables are taken");
    for list in [&[][..], &[0], &[1]] {
        let library = proved::search(&tables, &packet(1), list, PLACES);
        assert_eq!(library, search_answer(&search(&judged, &packet(1), list), PLACES), "{list:?}");
    }
}
