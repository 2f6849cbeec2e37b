//! The proved library and the reference, asked the same questions of the same bytes.

use std::sync::atomic::{AtomicU64, Ordering};
use std::thread::{available_parallelism, scope, Builder};

use harness::answers::{answer, search_answer, Answer, Places};
use harness::generate::full::{full_packet, full_set, last_by_polynomial, last_parameter, Shape};
use harness::generate::hostile::hostile_sets;
use harness::generate::mutations::{mutate_bytes, noise_line};
use harness::generate::packets::Asked;
use harness::generate::sets::{large_set, small_set};
use harness::generate::{borrowed, indexes, packets, states, ByteSet};
use harness::proved;
use harness::random::Random;
use harness::reference::index::{make, search};
use harness::reference::judging::{MOST_CELLS, TABLES};
use harness::reference::limits::{limit_step_from, State, HARD, SOFT, WITHIN};
use harness::reference::lines::{count_lines, lines};
use harness::reference::packets::{extract, identify, Raw, Reading};
use harness::reference::reach::reaching;
use harness::reference::rows::Ocf;
use harness::reference::values::{engineer, Value};
use harness::reference::{self, Imported, Judged, Refusal, Tables};
use harness::tally::{Question, Tally};

const SMALL_SETS: u64 = 40_000;
const LARGE_SETS: u64 = 100;
const FULL_SETS: u64 = 20;

/// Packets for each set, each asked all four packet questions.
const PACKETS: u64 = 3;

/// 2 MiB that the library asks for, and as much for the reference.
const STACK: usize = 4 << 20;

/// The kinds of answers that must occur.
const ANSWERS: [(Question, &str); 24] = [
    (Question::Import, FEW_CELLS),
    (Question::Import, FEW_POSITIONS),
    (Question::Import, FEW_OF_BOTH),
    (Question::Import, SHARED_CURVE),
    (Question::Import, SHARED_POLYNOMIAL),
    (Question::Import, POINT),
    (Question::Import, LIMIT),
    (Question::Extract, "integer, valid"),
    (Question::Extract, "integer, invalid"),
    (Question::Extract, "string, valid"),
    (Question::Extract, "string, invalid"),
    (Question::Extract, "real, valid"),
    (Question::Extract, "real, invalid"),
    (Question::Engineer, "integer"),
    (Question::Engineer, "double"),
    (Question::Engineer, "string"),
    (Question::Engineer, "text"),
    (Question::Engineer, "real of 32 bits"),
    (Question::Engineer, "real of 64 bits"),
    (Question::LimitStep, "within"),
    (Question::LimitStep, "soft"),
    (Question::LimitStep, "hard"),
    (Question::LimitStep, "run raised, announced kept"),
    (Question::LimitStep, NO_STATE),
];

const NO_STATE: &str = "numbers that are no state";

/// What refusal 3 doesn't tell.
const FEW_CELLS: &str = "too few cells alone";
const FEW_POSITIONS: &str = "too few positions alone";
const FEW_OF_BOTH: &str = "too few cells and positions";

/// What the columns of a verdict don't tell.
const SHARED_CURVE: &str = "caf and mcf rows of one key";
const SHARED_POLYNOMIAL: &str = "mcf rows of one key";
const POINT: &str = "cap row of a polynomial";
const LIMIT: &str = "INTER C on a polynomial";

/// 34 comes after 1 and 2 and before the packet's refusals.
#[test]
fn numbers_that_are_no_state_are_refused() {
    let long = vec![b'\n'; 65_537];
    let rows = vec![b'\n'; 1_025];
    let mut tables: Tables = [b""; TABLES];
    for (k, most) in [1, 65_535, 65_535, 255, 255].into_iter().enumerate() {
        for number in [most + 1, most + 11, -1, i64::MIN, i64::MAX] {
            let mut state = [0; 5];
            state[k] = number;
            tables[6] = b"";
            assert_eq!(proved::limit_step(&tables, b"", b"", state, PLACES), refused(34, 0));
            tables[6] = &long;
            assert_eq!(proved::limit_step(&tables, b"", b"", state, PLACES), refused(1, 7));
            tables[6] = &rows;
            assert_eq!(proved::limit_step(&tables, b"", b"", state, PLACES), refused(2, 7));
        }
    }
    assert_eq!(proved::limit_step(&[b""; TABLES], b"", b"", [0, 10, 0, 0, 0], PLACES), refused(20, 0));
}

const PLACES: Places = [7, -7, 77, -77, 777, -777, 0, 1];

fn refused(number: u64, place: u64) -> Answer {
    Answer { result: (number << 32) + place, places: PLACES }
}

#[test]
fn the_library_answers_as_the_reference() {
    let tally = compare_all();
    println!("{tally}");
    assert!(tally.sets >= 20_000 && tally.packet_questions() >= 200_000);
    assert!(tally.replaced.leaning_changed > 0);
    let wrong_lists = indexes::WRONG.map(|kind| (Question::Search, kind));
    let missing = tally.missing(&[&ANSWERS[..], &wrong_lists].concat());
    assert!(missing.is_empty(), "never met: {missing:#?}");
}

#[test]
fn hostile_tables_get_the_same_cells() {
    let judge = || {
        for (title, set) in &hostile_sets() {
            let tables = borrowed(set);
            let by_reference = reference::import(&tables, MOST_CELLS, MOST_CELLS);
            let (mut cells, mut positions) = (vec![7; MOST_CELLS], vec![7; MOST_CELLS]);
            let library = proved::import(&tables, &mut cells, &mut positions, [0; 8]);
            assert_eq!(library, answer(&by_reference, [0; 8]), "{title}");
            let imported = by_reference.expect("the tables are taken");
            assert_eq!(cells, imported.cells, "{title}");
            assert_eq!(positions, imported.positions, "{title}");
        }
    };
    Builder::new().stack_size(STACK).spawn(judge).expect("a thread").join().expect("no cell differs");
}

/// All sets, on all cores: the sets and questions are the same however many there are.
fn compare_all() -> Tally {
    let next = AtomicU64::new(0);
    let work = || {
        let mut tally = Tally::default();
        loop {
            match next.fetch_add(1, Ordering::Relaxed) {
                number if number < FULL_SETS + LARGE_SETS + SMALL_SETS => compare_set(number, &mut tally),
                _ => return tally,
            }
        }
    };
    let mut total = Tally::default();
    scope(|scope| {
        let threads = available_parallelism().map_or(1, usize::from);
        let workers: Vec<_> = (0..threads)
            .map(|_| Builder::new().stack_size(STACK).spawn_scoped(scope, work).expect("a thread starts"))
            .collect();
        for worker in workers {
            total.add(worker.join().expect("no answer differs"));
        }
    });
    total
}

/// A set's number is its seed: the first are full, then large, then small.
fn compare_set(number: u64, tally: &mut Tally) {
    let mut random = Random::new(number);
    let set = match number {
        _ if number < FULL_SETS => nearly_full_set(&mut random),
        _ if number < FULL_SETS + LARGE_SETS => large_set(&mut random),
        _ => small_set(&mut random),
    };
    tally.sets += 1;
    Comparison { number, set: &set, random, tally }.run();
}

/// Full tables with a few mistakes.
fn nearly_full_set(random: &mut Random) -> ByteSet {
    let chain = *random.pick(&[16, 1_024]);
    let mut set = full_set(Shape { chain, ..FULL });
    for _ in 0..random.below(5) {
        mutate_bytes(random, &mut set);
    }
    set
}

const FULL: Shape = Shape { rows: 1_024, chain: 1_024 };

/// One set of tables, and what is asked of it.
struct Comparison<'s> {
    number: u64,
    set: &'s ByteSet,
    random: Random,
    tally: &'s mut Tally,
}

impl<'s> Comparison<'s> {
    fn run(&mut self) {
        let tables = borrowed(self.set);
        self.imports(&tables);
        let judged = reference::judged(&tables);
        self.index(&tables, &judged);
        for _ in 0..PACKETS {
            self.packet_questions(&tables, &judged);
        }
        if let Ok(judged) = &judged {
            self.polynomials(judged);
            self.replaced_line(judged);
        }
    }

    /// Counts what rows have to do with polynomials.
    fn polynomials(&mut self, judged: &Judged) {
        let held = |ident: &[u8]| judged.mcf.well_formed().filter(|row| row.ident == ident).count();
        let is_polynomial = |name: &[u8]| judged.mcf.good(&name).is_some();
        let by_polynomial = |ocf: &Ocf| {
            let row = judged.pcf.good(&ocf.name).filter(|_| ocf.inter == b'C');
            row.is_some_and(|(_, row)| row.categ == b'N' && row.curtx.is_some_and(is_polynomial))
        };
        let met = [
            (SHARED_CURVE, judged.caf.well_formed().any(|row| held(row.numbr) > 0)),
            (SHARED_POLYNOMIAL, judged.mcf.well_formed().any(|row| held(row.ident) > 1)),
            (POINT, judged.cap.well_formed().any(|row| is_polynomial(row.numbr))),
            (LIMIT, judged.ocf.well_formed().any(by_polynomial)),
        ];
        met.iter().filter(|(_, met)| *met).for_each(|(kind, _)| self.tally.answer(Question::Import, kind));
    }

    /// Places that hold anything.
    fn places(&mut self) -> Places {
        std::array::from_fn(|_| self.random.word() as i64)
    }

    fn check<T: PartialEq + std::fmt::Debug>(&self, asked: &str, library: T, reference: T) {
        if library != reference {
            let tables = self.set.each_ref().map(|table| shown(table));
            let number = self.number;
            panic!("set {number}, {asked}\nlibrary   {library:?}\nreference {reference:?}\n{tables:#?}");
        }
    }

    /// Imports with enough cells and positions, with more, or with too few of either or of both.
    fn imports(&mut self, tables: &Tables) {
        let rows: usize = tables.iter().map(|table| count_lines(table)).sum();
        let [cells, positions] = match self.random.below(20) {
            0..=8 => [rows; 2],
            9..=16 => [self.more(rows), self.more(rows)],
            17 => [self.fewer(rows), self.more(rows)],
            18 => [self.more(rows), self.fewer(rows)],
            _ => [self.fewer(rows), self.fewer(rows)],
        };
        match self.import(tables, cells, positions) {
            Ok(imported) => {
                let owners = (0..TABLES).flat_map(|table| vec![table; count_lines(tables[table])]);
                let told = owners.zip(imported.cells.iter().zip(&imported.positions));
                told.for_each(|(table, (&cell, &position))| self.tally.verdict(table, cell, position));
            }
            Err(Refusal { number: 3, .. }) => {
                let kind = match (cells < rows, positions < rows) {
                    (true, true) => FEW_OF_BOTH,
                    (true, false) => FEW_CELLS,
                    _ => FEW_POSITIONS,
                };
                self.tally.answer(Question::Import, kind);
            }
            Err(_) => {}
        }
    }

    /// So many, or a few more.
    fn more(&mut self, rows: usize) -> usize {
        rows + self.random.below(20)
    }

    /// One less, or any smaller number, as far as there is one.
    fn fewer(&mut self, rows: usize) -> usize {
        match self.random.chance(40) {
            true => rows.saturating_sub(1),
            false => self.random.below(rows),
        }
    }

    /// Cells or positions that hold anything.
    fn words(&mut self, count: usize) -> Vec<u16> {
        (0..count).map(|_| self.random.word() as u16).collect()
    }

    /// The answer, and the cells and positions of the rows and those past them, or all untouched.
    fn import(&mut self, tables: &Tables, cells: usize, positions: usize) -> Result<Imported, Refusal> {
        let (mut cells, mut positions) = (self.words(cells), self.words(positions));
        let (mut new_cells, mut new_positions) = (cells.clone(), positions.clone());
        let places = self.places();
        let library = proved::import(tables, &mut new_cells, &mut new_positions, places);
        let imported = reference::import(tables, cells.len(), positions.len());
        if let Ok(imported) = &imported {
            imported.write(&mut cells, &mut positions);
        }
        self.check("import's answer", library, answer(&imported, places));
        self.check("import's cells", &new_cells, &cells);
        self.check("import's positions", &new_positions, &positions);
        self.tally.result(Question::Import, library.result);
        imported
    }

    fn packet_questions(&mut self, tables: &Tables, judged: &Result<Judged, Refusal>) {
        let nothing = reference::judging::judge(&[b""; TABLES]);
        let known = judged.as_ref().unwrap_or(&nothing);
        let full = self.number < FULL_SETS && self.random.chance(50);
        let packet = if full { full_packet(FULL) } else { packets::packet(&mut self.random, known) };
        let Asked { mut name, occurrence, limited } = packets::asked(&mut self.random, known, &packet);
        if full && self.random.chance(50) {
            let last = if self.random.chance(50) { last_parameter } else { last_by_polynomial };
            name = last(FULL).into_bytes();
        }
        self.identify(tables, judged, &packet);
        self.search(tables, judged, &packet);
        self.extract(tables, judged, &packet, &name, occurrence);
        self.engineer(tables, judged, &packet, &name, occurrence);
        let state = states::numbers(&mut self.random, &packet);
        self.limit_step(tables, judged, &packet, &limited, state);
    }

    /// Compares one answer and counts its result.
    fn answered(&mut self, question: Question, asked: &str, library: Answer, reference: Answer) {
        self.check(asked, library, reference);
        self.tally.result(question, library.result);
    }

    fn identify(&mut self, tables: &Tables, judged: &Result<Judged, Refusal>, packet: &[u8]) {
        let places = self.places();
        let expected = ask(judged, |judged| identify(judged, packet));
        let asked = format!("identify {packet:02X?}");
        let library = proved::identify(tables, packet, places);
        self.answered(Question::Identify, &asked, library, answer(&expected, places));
    }

    /// Makes the index in a list with enough places, with more, or with too few; places past the index stay.
    fn index(&mut self, tables: &Tables, judged: &Result<Judged, Refusal>) {
        let entries = ask(judged, |judged| make(judged, MOST_CELLS)).map_or(0, |index| index.len());
        let room = match self.random.below(10) {
            0..=4 => entries,
            5..=7 => self.more(entries),
            _ => self.fewer(entries),
        };
        let (mut rows, places) = (self.words(room), self.places());
        let mut new_rows = rows.clone();
        let library = proved::index(tables, &mut new_rows, places);
        let expected = ask(judged, |judged| make(judged, room));
        if let Ok(index) = &expected {
            rows[..index.len()].copy_from_slice(index);
        }
        self.answered(Question::Index, "index's answer", library, answer(&expected, places));
        self.check("index's rows", &new_rows, &rows);
    }

    /// A search of the index, or of a list that isn't it.
    fn search(&mut self, tables: &Tables, judged: &Result<Judged, Refusal>, packet: &[u8]) {
        let places = self.places();
        let (list, wrong) = match judged {
            Ok(judged) => indexes::list(&mut self.random, judged),
            Err(_) => (self.words(3), None),
        };
        let expected = ask(judged, |judged| search(judged, packet, &list));
        let asked = format!("search {list:?} for {packet:02X?}");
        let library = proved::search(tables, packet, &list, places);
        self.answered(Question::Search, &asked, library, search_answer(&expected, places));
        if let (Some(wrong), Err(Refusal { number: 40, .. })) = (wrong, &expected) {
            self.tally.answer(Question::Search, wrong);
        }
    }

    fn extract(
        &mut self,
        tables: &Tables,
        judged: &Result<Judged, Refusal>,
        packet: &[u8],
        name: &[u8],
        occurrence: usize,
    ) {
        let places = self.places();
        let expected = ask(judged, |judged| extract(judged, packet, name, occurrence));
        let asked = format!("extract {} {occurrence} of {packet:02X?}", name.escape_ascii());
        let library = proved::extract(tables, packet, name, occurrence, places);
        self.answered(Question::Extract, &asked, library, answer(&expected, places));
        if let Ok(reading) = &expected {
            self.tally.answer(Question::Extract, kind_of_reading(reading));
        }
    }

    fn engineer(
        &mut self,
        tables: &Tables,
        judged: &Result<Judged, Refusal>,
        packet: &[u8],
        name: &[u8],
        occurrence: usize,
    ) {
        let places = self.places();
        let expected = ask(judged, |judged| engineer(judged, packet, name, occurrence));
        let asked = format!("engineer {} {occurrence} of {packet:02X?}", name.escape_ascii());
        let library = proved::engineer(tables, packet, name, occurrence, places);
        self.answered(Question::Engineer, &asked, library, answer(&expected, places));
        if let Ok(value) = &expected {
            self.tally.answer(Question::Engineer, kind_of_value(value));
        }
    }

    fn limit_step(
        &mut self,
        tables: &Tables,
        judged: &Result<Judged, Refusal>,
        packet: &[u8],
        name: &[u8],
        state: [i64; 5],
    ) {
        let places = self.places();
        let expected = ask(judged, |judged| limit_step_from(judged, packet, name, state));
        let asked = format!("limit step of {} from {state:?} by {packet:02X?}", name.escape_ascii());
        let library = proved::limit_step(tables, packet, name, state, places);
        self.answered(Question::LimitStep, &asked, library, answer(&expected, places));
        match (State::of(state), &expected) {
            (Some(before), Ok(after)) => self.tally.answer(Question::LimitStep, kind_of_step(&before, after)),
            (None, Err(Refusal { number: 34, .. })) => self.tally.answer(Question::LimitStep, NO_STATE),
            _ => {}
        }
    }

    /// Demand 3: a row that reaches a replaced line neither in the old tables nor in the new keeps its verdict and its
    /// position.
    fn replaced_line(&mut self, judged: &Judged) {
        let Some((changed, line)) = self.with_replaced_line() else { return };
        let new_tables = borrowed(&changed);
        let Ok(new_judged) = reference::judged(&new_tables) else { return };
        let rows = judged.cells().len();
        let old = self.import(&borrowed(self.set), rows, rows).expect("the old tables are taken");
        let new = self.import(&new_tables, rows, rows).expect("the new tables are taken");
        let told = |imported: &Imported, row: usize| (imported.cells[row], imported.positions[row]);
        let (from_old, from_new) = (reaching(judged, line), reaching(&new_judged, line));
        self.tally.replaced.lines += 1;
        for row in (0..rows).filter(|&row| row != line) {
            if from_old[row] || from_new[row] {
                self.tally.replaced.leaning += 1;
                self.tally.replaced.leaning_changed += u64::from(told(&old, row) != told(&new, row));
            } else {
                self.tally.replaced.apart += 1;
                self.check(&format!("row {row} without line {line}"), told(&new, row), told(&old, row));
            }
        }
    }

    /// The tables with one ended line replaced, and the line's place among all rows.
    fn with_replaced_line(&mut self) -> Option<(ByteSet, usize)> {
        let table = self.random.below(TABLES);
        let old: Vec<_> = lines(&self.set[table]).filter(|line| line.ended).collect();
        if old.is_empty() {
            return None;
        }
        let at = self.random.below(old.len());
        let other = old[self.random.below(old.len())];
        let new_bytes = self.new_bytes(old[at].bytes, other.bytes);
        let mut changed = self.set.clone();
        changed[table].splice(old[at].start..old[at].start + old[at].bytes.len(), new_bytes);
        let before: usize = self.set[..table].iter().map(|table| count_lines(table)).sum();
        Some((changed, before + at))
    }

    /// Noise, another line, or the old line with one byte changed.
    fn new_bytes(&mut self, old: &[u8], other: &[u8]) -> Vec<u8> {
        match self.random.below(10) {
            0..=3 => noise_line(&mut self.random),
            4..=5 => other.to_vec(),
            _ => {
                let mut bytes = old.to_vec();
                let at = self.random.below(bytes.len());
                let new = *self.random.pick(b"\t0123ABa _~PFNSTIUHRYC.eE-+\r\x7F");
                bytes.iter_mut().skip(at).take(1).for_each(|byte| *byte = new);
                bytes
            }
        }
    }
}

/// A table as text, unless it is long.
fn shown(table: &[u8]) -> String {
    match table.len() {
        0..=4_000 => table.escape_ascii().to_string(),
        length => format!("{length} bytes"),
    }
}

/// A question of tables that are judged, or their refusal.
fn ask<'j, 'a, T>(
    judged: &'j Result<Judged<'a>, Refusal>,
    question: impl FnOnce(&'j Judged<'a>) -> Result<T, Refusal>,
) -> Result<T, Refusal> {
    judged.as_ref().map_err(|refusal| *refusal).and_then(question)
}

fn kind_of_reading(reading: &Reading) -> &'static str {
    match (reading.raw, reading.valid) {
        (Raw::Integer(_), true) => "integer, valid",
        (Raw::Integer(_), false) => "integer, invalid",
        (Raw::Text { .. }, true) => "string, valid",
        (Raw::Text { .. }, false) => "string, invalid",
        (Raw::Real { .. }, true) => "real, valid",
        (Raw::Real { .. }, false) => "real, invalid",
    }
}

fn kind_of_value(value: &Value) -> &'static str {
    match value {
        Value::Integer(_) => "integer",
        Value::Double(_) => "double",
        Value::String { .. } => "string",
        Value::Text { .. } => "text",
        Value::Real { width: 32, .. } => "real of 32 bits",
        Value::Real { .. } => "real of 64 bits",
    }
}

fn kind_of_step(before: &State, after: &State) -> &'static str {
    match after.announced {
        _ if after.run > before.run && after.announced == before.announced => "run raised, announced kept",
        WITHIN => "within",
        SOFT => "soft",
        HARD => "hard",
        _ => "announced past 2",
    }
}
