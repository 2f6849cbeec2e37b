//! What a comparison met, so that it shows that nothing was left out.

use std::collections::BTreeMap;
use std::fmt;

use crate::reference::faults::Position;
use crate::reference::judging::TABLES;
use crate::reference::schemas::{verdict, Column, Kind, Verdict, GOOD, SCHEMAS};

pub const TABLE_NAMES: [&str; TABLES] =
    ["pid", "pic", "plf", "pcf", "caf", "cap", "txf", "txp", "ocf", "ocp", "mcf"];

#[derive(Clone, Copy, Debug, PartialEq, Eq, PartialOrd, Ord)]
pub enum Question {
    Import,
    Identify,
    Index,
    Search,
    Extract,
    Engineer,
    LimitStep,
}

use Question::{Engineer, Extract, Identify, Import, Index, LimitStep, Search};

const QUESTIONS: [Question; 7] = [Import, Identify, Index, Search, Extract, Engineer, LimitStep];

impl Question {
    /// The refusals that 01 and 02 have for it.
    fn refusals(self) -> Vec<u64> {
        match self {
            Import | Index => vec![1, 2, 3],
            Identify => [1, 2].into_iter().chain(20..=25).collect(),
            Search => [1, 2, 40].into_iter().chain(20..=25).collect(),
            Extract => [1, 2].into_iter().chain(20..=29).collect(),
            Engineer => [1, 2].into_iter().chain(20..=32).collect(),
            LimitStep => [1, 2].into_iter().chain(20..=26).chain([28, 30, 31, 33, 34, 35, 36]).collect(),
        }
    }
}

/// The verdicts of reasons 8, 10, 11 and 12 that each table has: reason and column.
const LATER: [&[(u16, u16)]; TABLES] = [
    &[],
    &[(8, 4), (8, 6)],
    &[(8, 6), (11, 1), (11, 2)],
    &[(8, 6), (8, 10), (8, 12), (12, 8), (11, 8), (11, 12)],
    &[(8, 3), (8, 4), (10, 7)],
    &[(11, 1)],
    &[(8, 3), (10, 4)],
    &[(8, 3), (11, 1)],
    &[(8, 5), (10, 3), (11, 1), (11, 4)],
    &[(8, 3), (8, 5), (11, 1), (11, 6)],
    &[],
];

/// Every verdict that a row of the table can have.
fn possible_verdicts(table: usize) -> Vec<Verdict> {
    let whole = [1, 2, 3, 9].map(|reason| verdict(reason, 0));
    let mut verdicts = vec![GOOD];
    verdicts.extend(whole);
    for (at, column) in SCHEMAS[table].iter().enumerate() {
        let numbers = matches!(column.kind, Kind::Number { .. } | Kind::Coefficient);
        let letters = matches!(column.kind, Kind::Letter(_));
        let reasons =
            [(4, column.mandatory), (5, true), (6, numbers), (13, numbers), (14, letters), (7, numbers)];
        let possible = reasons.iter().filter(|(_, possible)| *possible);
        verdicts.extend(possible.map(|(reason, _)| verdict(*reason, at as u16 + 1)));
    }
    verdicts.extend(LATER[table].iter().map(|(reason, column)| verdict(*reason, *column)));
    verdicts
}

/// Every position that a column can have, with its reason: 6 is one past its texts, and 13 at any character, of a
/// coefficient also one past the last.
fn possible_positions(column: &Column) -> Vec<(u16, Position)> {
    let wide = column.width as Position;
    let wrong = |last: Position| (1..=last).map(|position| (13, position));
    match column.kind {
        Kind::Text | Kind::Letter(_) => Vec::new(),
        Kind::Coefficient => wrong(wide + 1).chain([(6, 2)]).collect(),
        Kind::Number { .. } => {
            let bare = (2..=3).filter(|&position| position <= wide + 1);
            wrong(wide).chain(bare.map(|position| (6, position))).collect()
        }
    }
}

/// What replacing single lines did to the other rows.
#[derive(Clone, Copy, Debug, Default)]
pub struct Replaced {
    pub lines: u64,
    pub apart: u64,
    pub leaning: u64,
    pub leaning_changed: u64,
}

#[derive(Default)]
pub struct Tally {
    pub sets: u64,
    pub rows: u64,
    pub replaced: Replaced,
    verdicts: BTreeMap<(usize, Verdict), u64>,
    /// The positions that aren't 0, each with its table and verdict.
    positions: BTreeMap<(usize, Verdict, Position), u64>,
    results: BTreeMap<(Question, u64), u64>,
    first_tables: BTreeMap<(u64, u64), u64>,
    answers: BTreeMap<(Question, &'static str), u64>,
}

impl Tally {
    pub fn verdict(&mut self, table: usize, verdict: Verdict, position: Position) {
        self.rows += 1;
        *self.verdicts.entry((table, verdict)).or_default() += 1;
        if position != 0 {
            *self.positions.entry((table, verdict, position)).or_default() += 1;
        }
    }

    /// The result of a question: 0, or number × 2^32 + place.
    pub fn result(&mut self, question: Question, result: u64) {
        let (number, place) = (result >> 32, result & 0xFFFF_FFFF);
        *self.results.entry((question, number)).or_default() += 1;
        if number == 1 || number == 2 {
            *self.first_tables.entry((number, place)).or_default() += 1;
        }
    }

    /// An answer of a kind that must occur.
    pub fn answer(&mut self, question: Question, kind: &'static str) {
        *self.answers.entry((question, kind)).or_default() += 1;
    }

    pub fn add(&mut self, other: Tally) {
        fn sum<K: Ord>(into: &mut BTreeMap<K, u64>, from: BTreeMap<K, u64>) {
            from.into_iter().for_each(|(key, count)| *into.entry(key).or_default() += count);
        }
        self.sets += other.sets;
        self.rows += other.rows;
        self.replaced.lines += other.replaced.lines;
        self.replaced.apart += other.replaced.apart;
        self.replaced.leaning += other.replaced.leaning;
        self.replaced.leaning_changed += other.replaced.leaning_changed;
        sum(&mut self.verdicts, other.verdicts);
        sum(&mut self.positions, other.positions);
        sum(&mut self.results, other.results);
        sum(&mut self.first_tables, other.first_tables);
        sum(&mut self.answers, other.answers);
    }

    pub fn packet_questions(&self) -> u64 {
        let of_packets = |question: &Question| !matches!(question, Import | Index);
        self.results.iter().filter(|((question, _), _)| of_packets(question)).map(|(_, count)| count).sum()
    }

    /// What 01 has, and which of these kinds of answers, that was never met.
    pub fn missing(&self, answers: &[(Question, &'static str)]) -> Vec<String> {
        let mut missing = Vec::new();
        for (table, name) in TABLE_NAMES.iter().enumerate() {
            let never = |verdict: &Verdict| !self.verdicts.contains_key(&(table, *verdict));
            let verdicts = possible_verdicts(table).into_iter().filter(never);
            missing.extend(
                verdicts.map(|verdict| format!("{name}: reason {} column {}", verdict / 256, verdict % 256)),
            );
            missing.extend(self.missing_positions(table));
        }
        for question in QUESTIONS {
            let never = |number: &u64| !self.results.contains_key(&(question, *number));
            let numbers = question.refusals().into_iter().chain([0]).filter(never);
            missing.extend(numbers.map(|number| format!("{question:?}: {number}")));
        }
        for at in (1..=TABLES as u64).flat_map(|place| [(1, place), (2, place)]) {
            if !self.first_tables.contains_key(&at) {
                missing.push(format!("refusal {} at table {}", at.0, at.1));
            }
        }
        let never = answers.iter().filter(|answer| !self.answers.contains_key(answer));
        missing.extend(never.map(|(question, kind)| format!("{question:?}: {kind}")));
        missing
    }

    fn missing_positions(&self, table: usize) -> Vec<String> {
        let possible = |(at, column): (usize, &Column)| {
            let at = at as u16 + 1;
            possible_positions(column).into_iter().map(move |(reason, position)| (reason, at, position))
        };
        let met = |reason, at, position| self.positions.contains_key(&(table, verdict(reason, at), position));
        let positions = SCHEMAS[table].iter().enumerate().flat_map(possible);
        let never = positions.filter(|&(reason, at, position)| !met(reason, at, position));
        let name = TABLE_NAMES[table];
        never.map(|(reason, at, position)| format!("{name}: {reason}:{at}@{position}")).collect()
    }

    fn reason_count(&self, table: usize, reason: u16) -> u64 {
        let range = (table, verdict(reason, 0))..(table, verdict(reason + 1, 0));
        self.verdicts.range(range).map(|(_, count)| count).sum()
    }
}

impl Tally {
    fn show_reasons(&self, out: &mut fmt::Formatter) -> fmt::Result {
        write!(out, "\nreason")?;
        TABLE_NAMES.iter().try_for_each(|name| write!(out, "{name:>8}"))?;
        for reason in (0..=6).chain([13, 14]).chain(7..=10).chain([12, 11]) {
            write!(out, "\n{reason:6}")?;
            (0..TABLES).try_for_each(|table| write!(out, "{:8}", self.reason_count(table, reason)))?;
        }
        let (verdicts, positions) = (self.verdicts.len(), self.positions.len());
        writeln!(
            out,
            "\n{verdicts} different verdicts (table, reason, column), {positions} with their positions"
        )
    }

    fn show_results(&self, out: &mut fmt::Formatter) -> fmt::Result {
        write!(out, "\nresult")?;
        QUESTIONS.iter().try_for_each(|question| write!(out, "{:>10}", format!("{question:?}")))?;
        for number in (0..=3).chain(20..=36).chain([40]) {
            write!(out, "\n{number:6}")?;
            let count = |question| self.results.get(&(question, number)).copied().unwrap_or(0);
            QUESTIONS.iter().try_for_each(|question| write!(out, "{:10}", count(*question)))?;
        }
        writeln!(out, "\n")?;
        for ((question, kind), count) in &self.answers {
            writeln!(out, "{:10} {kind}: {count}", format!("{question:?}"))?;
        }
        Ok(())
    }
}

impl fmt::Display for Tally {
    fn fmt(&self, out: &mut fmt::Formatter) -> fmt::Result {
        let (sets, rows, questions) = (self.sets, self.rows, self.packet_questions());
        writeln!(out, "{sets} table sets, {rows} rows, {questions} packet questions")?;
        self.show_reasons(out)?;
        self.show_results(out)?;
        let Replaced { lines, apart, leaning, leaning_changed } = self.replaced;
        writeln!(
            out,
            "\nlines replaced: {lines}; rows that don't reach the line, all as they were: {apart};"
        )?;
        writeln!(out, "rows that reach it: {leaning}, of these changed: {leaning_changed}")
    }
}
