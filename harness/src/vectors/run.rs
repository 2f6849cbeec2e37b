//! A vector file asked: every answer is compared with its line, letter by letter.

use std::collections::BTreeMap;

use super::asked::Asked;
use super::script::{read_line, Line, Question, Room, Setting};
use super::spelled;
use crate::answers::Answer;
use crate::reference::judging::TABLES;
use crate::reference::limits::State;
use crate::reference::Tables;

const TXP: usize = 7;

/// How many questions of each kind were asked, and what is not as it should be, by line from 1.
#[derive(Default)]
pub struct Run {
    pub asked: BTreeMap<&'static str, usize>,
    pub differences: Vec<(usize, String)>,
}

/// A question that waits for its answer: its line and what came out, or nothing where it couldn't be asked.
struct Waiting {
    line: usize,
    answer: Option<String>,
}

/// Asks all questions of a file.
pub fn run(text: &[u8], asked: &impl Asked) -> Run {
    let mut run = Run::default();
    let mut setting = Setting::default();
    let mut waiting = None;
    for (at, bytes) in text.split(|&byte| byte == b'\n').enumerate() {
        let line = read_line(bytes);
        if let Some(Line::Answer(expected)) = &line {
            run.compare(at + 1, waiting.take(), expected);
            continue;
        }
        run.unanswered(waiting.take());
        match line {
            Some(Line::Question(question)) => {
                let answer = ask(&question, &mut setting, asked);
                if answer.is_some() {
                    *run.asked.entry(question.kind()).or_default() += 1;
                }
                waiting = Some(Waiting { line: at + 1, answer });
            }
            line => {
                if line.and_then(|line| set_up(line, &mut setting)).is_none() {
                    run.differ(at + 1, format!("can't be read: {}", String::from_utf8_lossy(bytes)));
                }
            }
        }
    }
    run.unanswered(waiting);
    run
}

impl Run {
    fn differ(&mut self, line: usize, what: String) {
        self.differences.push((line, what));
    }

    fn unanswered(&mut self, waiting: Option<Waiting>) {
        if let Some(waiting) = waiting {
            self.differ(waiting.line, "a question without an answer".to_string());
        }
    }

    fn compare(&mut self, line: usize, waiting: Option<Waiting>, expected: &str) {
        match waiting {
            None => self.differ(line, "an answer under no question".to_string()),
            Some(Waiting { answer: Some(answer), .. }) if answer != expected => {
                self.differ(line, format!("expected {expected}, answered {answer}"));
            }
            Some(_) => {}
        }
    }
}

/// What a line other than a question or an answer sets up, unless it doesn't fit.
fn set_up(line: Line, setting: &mut Setting) -> Option<()> {
    match line {
        Line::Clear(places) => setting.clear(places),
        Line::Add(place, bytes) => setting.add(place, &bytes)?,
        Line::Packet(bytes) => setting.set_packet(&bytes)?,
        Line::State(state) => setting.state = state,
        Line::Comment | Line::Question(_) | Line::Answer(_) => {}
    }
    Some(())
}

/// The answer as it is spelled. After a step that isn't refused the state is the one that it answered.
fn ask(question: &Question, setting: &mut Setting, asked: &impl Asked) -> Option<String> {
    let (tables, packet) = (setting.tables(), setting.packet());
    Some(match question {
        Question::Import(room) => import(&tables, *room, asked, spelled::import),
        Question::Row { table, row } => import(&only(*table, row), Room::MOST, asked, spelled::row),
        Question::Identify => spelled::identify(&asked.identify(&tables, packet)),
        Question::Index { room } => {
            let mut rows = vec![spelled::UNWRITTEN; *room];
            let answer = asked.index(&tables, &mut rows);
            spelled::index(&answer, &rows)
        }
        Question::Search { list } => spelled::search(&asked.search(&tables, packet, list)),
        Question::Extract { name, occurrence } => {
            spelled::extract(&asked.extract(&tables, packet, name, *occurrence))
        }
        Question::Engineer { name, occurrence } => {
            spelled::engineer(&asked.engineer(&tables, packet, name, *occurrence), tables[TXP])
        }
        Question::Step { name } => {
            let answer = asked.step(&tables, packet, name, setting.state);
            setting.state = state_after(&answer).unwrap_or(setting.state);
            spelled::step(&answer)
        }
        Question::Inner(inner) => asked.inner(inner, packet)?,
    })
}

fn import(
    tables: &Tables,
    room: Room,
    asked: &impl Asked,
    spell: impl Fn(&Answer, &[u16], &[u16]) -> String,
) -> String {
    let mut cells = vec![spelled::UNWRITTEN; room.cells];
    let mut positions = vec![spelled::UNWRITTEN; room.positions];
    let answer = asked.import(tables, &mut cells, &mut positions);
    spell(&answer, &cells, &positions)
}

/// The tables of which one has a row, and all others none.
fn only(table: usize, row: &[u8]) -> Tables<'_> {
    let mut tables: Tables = [b""; TABLES];
    tables[table] = row;
    tables
}

fn state_after(answer: &Answer) -> Option<State> {
    let [fresh, apid, count, run, announced, ..] = answer.places;
    State::of([fresh, apid, count, run, announced]).filter(|_| answer.result == 0)
}
