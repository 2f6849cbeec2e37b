//! Asks the proved library one question of full tables, once, so that a profiler can count what it costs:
//! `valgrind --tool=callgrind --main-stacksize=8000000 --toggle-collect='petrolyaz_*' target/release/ask limit-step 16`
//! With the number of a table, from 1, all others are empty, and with 0 all of them are: what the rows of one table
//! cost is the difference of the two.

use std::env;
use std::hint::black_box;

use harness::answers::Answer;
use harness::generate::borrowed;
use harness::generate::full::{full_packet, full_set, last_by_polynomial, last_parameter, Shape};
use harness::proved;
use harness::reference::index::index;
use harness::reference::judging::{MOST_CELLS, MOST_ROWS, TABLES};
use harness::reference::{judged, Tables};

const USAGE: &str = "usage: ask import|identify|index|search|extract|engineer|polynomial|limit-step CHAIN [TABLE]
CHAIN is the length of the VALID chains, up to 1024; TABLE the only table that has rows, 1 to 11, or 0 for none";

fn main() {
    let arguments: Vec<String> = env::args().collect();
    let (question, chain, only) = match arguments.as_slice() {
        [_, question, chain] => (question, chain, None),
        [_, question, chain, table] => (question, chain, Some(table)),
        _ => return println!("{USAGE}"),
    };
    let Ok(chain @ 1..=1_024) = chain.parse() else {
        return println!("{USAGE}");
    };
    let shape = Shape { rows: 1_024, chain };
    let mut set = full_set(shape);
    if let Some(table) = only {
        let Ok(table @ 0..=TABLES) = table.parse::<usize>() else {
            return println!("{USAGE}");
        };
        (0..TABLES).filter(|at| at + 1 != table).for_each(|at| set[at].clear());
    }
    let last = if question == "polynomial" { last_by_polynomial } else { last_parameter };
    match ask(question, &borrowed(&set), &full_packet(shape), last(shape).as_bytes()) {
        Some(answer) => println!("{question}: {:?}", black_box(answer)),
        None => println!("{USAGE}"),
    }
}

fn ask(question: &str, tables: &Tables, packet: &[u8], name: &[u8]) -> Option<Answer> {
    let places = [0; 8];
    Some(match question {
        "import" => proved::import(tables, &mut [0; MOST_CELLS], &mut [0; MOST_CELLS], places),
        "identify" => proved::identify(tables, packet, places),
        "index" => proved::index(tables, &mut [0; MOST_ROWS], places),
        "search" => {
            let list = index(&judged(tables).expect("the tables are taken"));
            proved::search(tables, packet, &list, places)
        }
        "extract" => proved::extract(tables, packet, name, 1, places),
        "engineer" | "polynomial" => proved::engineer(tables, packet, name, 1, places),
        "limit-step" => proved::limit_step(tables, packet, name, [1, 0, 0, 0, 0], places),
        _ => return None,
    })
}
