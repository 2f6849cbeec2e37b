//! The proved library and the reference side by side: least and median times of each question, the tables judged in
//! each. `archive` has the times over tables that are loaded once.

use std::hint::black_box;
use std::time::{Duration, Instant};

use harness::answers::{answer, search_answer, Answer, Places};
use harness::generate::borrowed;
use harness::generate::full::{full_packet, full_set, last_by_polynomial, last_parameter, Shape};
use harness::generate::hostile::hostile_sets;
use harness::proved;
use harness::reference::index::{index, make, search};
use harness::reference::judging::{MOST_CELLS, MOST_ROWS};
use harness::reference::limits::{limit_step, State};
use harness::reference::packets::{extract, identify};
use harness::reference::values::engineer;
use harness::reference::{import, judged, Judged, Tables};

const SHAPES: [(&str, Shape, usize); 3] = [
    ("typical, VALID chains of 4", Shape { rows: 100, chain: 4 }, 2_000),
    ("full, VALID chains of 16", Shape { rows: 1_024, chain: 16 }, 300),
    ("full, one VALID chain of 1,024", Shape { rows: 1_024, chain: 1_024 }, 300),
];

const NO_PLACES: Places = [0; 8];

fn main() {
    for (title, shape, rounds) in SHAPES {
        let set = full_set(shape);
        let tables = borrowed(&set);
        head(title, &tables);
        measure_all(&tables, shape, rounds);
    }
    for (title, set) in &hostile_sets() {
        let tables = borrowed(set);
        head(&format!("hostile, {title}"), &tables);
        measure_import(&tables, 300);
    }
}

fn head(title: &str, tables: &Tables) {
    let imported = import(tables, MOST_CELLS, MOST_CELLS).expect("the tables are taken");
    let bytes: usize = tables.iter().map(|table| table.len()).sum();
    println!("\n{title}: {bytes} bytes, {} rows, {} good", imported.cells.len(), imported.good);
    println!("{:10} {:>21} {:>21} {:>15} {:>21}", "", "library", "reference", "ratio", "ref., judged once");
    println!("{:10}{}{} {:>7} {:>7}{}", "us", HEADS, HEADS, "least", "median", HEADS);
}

const HEADS: &str = "      least     median";

fn measure_all(tables: &Tables, shape: Shape, rounds: usize) {
    let packet = full_packet(shape);
    let parameter = last_parameter(shape);
    let (packet, name) = (packet.as_slice(), parameter.as_bytes());
    let once = judged(tables).expect("the tables are taken");

    measure_import(tables, rounds);
    let by_reference = |judged: &Judged| answer(&identify(judged, packet), NO_PLACES);
    measure_packet(
        "identify",
        rounds,
        tables,
        &once,
        || proved::identify(tables, packet, NO_PLACES),
        by_reference,
    );
    measure_index(tables, &once, packet, rounds);
    let by_reference = |judged: &Judged| answer(&extract(judged, packet, name, 1), NO_PLACES);
    let by_library = || proved::extract(tables, packet, name, 1, NO_PLACES);
    measure_packet("extract", rounds, tables, &once, by_library, by_reference);
    let by_reference = |judged: &Judged| answer(&engineer(judged, packet, name, 1), NO_PLACES);
    let by_library = || proved::engineer(tables, packet, name, 1, NO_PLACES);
    measure_packet("engineer", rounds, tables, &once, by_library, by_reference);
    let polynomial = last_by_polynomial(shape);
    let by_reference =
        |judged: &Judged| answer(&engineer(judged, packet, polynomial.as_bytes(), 1), NO_PLACES);
    let by_library = || proved::engineer(tables, packet, polynomial.as_bytes(), 1, NO_PLACES);
    measure_packet("polynomial", rounds, tables, &once, by_library, by_reference);
    let fresh = State { fresh: true, ..State::default() };
    let by_reference = |judged: &Judged| answer(&limit_step(judged, packet, name, fresh), NO_PLACES);
    let by_library = || proved::limit_step(tables, packet, name, fresh.numbers(), NO_PLACES);
    measure_packet("limit step", rounds, tables, &once, by_library, by_reference);
}

fn measure_import(tables: &Tables, rounds: usize) {
    let (mut cells, mut positions) = (vec![0u16; MOST_CELLS], vec![0u16; MOST_CELLS]);
    let by_library = || proved::import(tables, &mut cells, &mut positions, NO_PLACES);
    let by_reference = || answer(&import(tables, MOST_CELLS, MOST_CELLS), NO_PLACES);
    measure("import", rounds, by_library, by_reference, None);
}

/// The index made, and searched for the packet: what it costs beside `identify` is the test of the list.
fn measure_index(tables: &Tables, once: &Judged, packet: &[u8], rounds: usize) {
    let mut rows = vec![0u16; MOST_ROWS];
    let by_library = || proved::index(tables, &mut rows, NO_PLACES);
    let by_reference = |judged: &Judged| answer(&make(judged, MOST_ROWS), NO_PLACES);
    measure_packet("index", rounds, tables, once, by_library, by_reference);
    let list = index(once);
    let by_library = || proved::search(tables, packet, &list, NO_PLACES);
    let by_reference = |judged: &Judged| search_answer(&search(judged, packet, &list), NO_PLACES);
    measure_packet("search", rounds, tables, once, by_library, by_reference);
}

/// A packet question: the reference judges the tables in it, and once apart from it.
fn measure_packet(
    question: &str,
    rounds: usize,
    tables: &Tables,
    once: &Judged,
    library: impl FnMut() -> Answer,
    reference: impl Fn(&Judged) -> Answer,
) {
    let anew = || reference(&judged(tables).expect("the tables are taken"));
    measure(question, rounds, library, anew, Some(&mut || reference(once)));
}

/// Asks each in turn, so that what slows the machine slows all.
fn measure(
    question: &str,
    rounds: usize,
    mut library: impl FnMut() -> Answer,
    mut reference: impl FnMut() -> Answer,
    mut once: Option<&mut dyn FnMut() -> Answer>,
) {
    assert_eq!(library(), reference(), "{question}");
    let (mut by_library, mut by_reference, mut by_once) = (Vec::new(), Vec::new(), Vec::new());
    for _ in 0..rounds {
        by_library.push(timed(&mut library));
        by_reference.push(timed(&mut reference));
        if let Some(once) = &mut once {
            by_once.push(timed(once));
        }
    }
    let (library, reference) = (Times::of(by_library), Times::of(by_reference));
    print!("{question:10}{library}{reference}");
    print!(" {:7.2} {:7.2}", library.least / reference.least, library.median / reference.median);
    match by_once.is_empty() {
        true => println!(),
        false => println!("{}", Times::of(by_once)),
    }
}

fn timed<T>(question: &mut (impl FnMut() -> T + ?Sized)) -> Duration {
    let start = Instant::now();
    black_box(question());
    start.elapsed()
}

/// In microseconds.
struct Times {
    least: f64,
    median: f64,
}

impl Times {
    fn of(mut times: Vec<Duration>) -> Self {
        times.sort_unstable();
        let micros = |at: usize| times[at].as_secs_f64() * 1e6;
        Times { least: micros(0), median: micros(times.len() / 2) }
    }
}

impl std::fmt::Display for Times {
    fn fmt(&self, out: &mut std::fmt::Formatter) -> std::fmt::Result {
        write!(out, " {:10.1} {:10.1}", self.least, self.median)
    }
}
