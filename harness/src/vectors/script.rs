//! The lines of a vector file, and what they set up.

use std::ops::Range;

use super::text::{byte_of, bytes, columns, hexadecimal, natural, naturals, row};
use crate::reference::judging::TABLES;
use crate::reference::limits::State;
use crate::reference::numbers::number;
use crate::reference::Tables;

/// The eleven tables in their order, and then the packet.
const PLACES: [&[u8]; TABLES + 1] =
    [b"pid", b"pic", b"plf", b"pcf", b"caf", b"cap", b"txf", b"txp", b"ocf", b"ocp", b"mcf", b"packet"];

const PACKET: usize = TABLES;

/// "A table holds up to 65,537 bytes and a packet as many".
const MOST_BYTES: usize = 65_537;

/// The cells and positions that are lent where a question doesn't say how many, and at most.
const MOST_CELLS: usize = 11_264;

/// The places of a list of rows that an index is lent where a question doesn't say how many, and at most, and the most
/// entries that a list to search has.
const MOST_ENTRIES: usize = 1_100;
const ENTRIES: usize = 1_024;

/// How many cells and how many positions an import is lent.
#[derive(Clone, Copy, Debug)]
pub struct Room {
    pub cells: usize,
    pub positions: usize,
}

impl Room {
    pub const MOST: Room = Room::alike(MOST_CELLS);

    const fn alike(cells: usize) -> Room {
        Room { cells, positions: cells }
    }
}

pub enum Line {
    Comment,
    Clear(Range<usize>),
    Add(usize, Vec<u8>),
    Packet(Vec<u8>),
    State(State),
    Question(Question),
    Answer(String),
}

#[derive(Debug)]
pub enum Question {
    Import(Room),
    Row { table: usize, row: Vec<u8> },
    Identify,
    Index { room: usize },
    Search { list: Vec<u16> },
    Extract { name: Vec<u8>, occurrence: usize },
    Engineer { name: Vec<u8>, occurrence: usize },
    Step { name: Vec<u8> },
    Inner(Inner),
}

/// What can be seen only inside.
#[derive(Debug)]
pub enum Inner {
    Number(Vec<u8>),
    Width { ptc: u64, pfc: u64 },
    Unsigned { bit: u64, width: u64 },
    Signed { bit: u64, width: u64 },
    String { bit: u64, bytes: u64 },
    Line { from: [i64; 2], to: [i64; 2], x: i64 },
}

/// A line by its first word, or `None` where it can't be read.
pub fn read_line(line: &[u8]) -> Option<Line> {
    if line.is_empty() || line.starts_with(b"#") {
        return Some(Line::Comment);
    }
    let end = line.iter().position(|&byte| byte == b' ').unwrap_or(line.len());
    let (word, text) = (&line[..end], line.get(end + 1..).unwrap_or_default());
    match word {
        b"packet" => hexadecimal(text).map(Line::Packet),
        b"packet+" => hexadecimal(text).map(|bytes| Line::Add(PACKET, bytes)),
        b"fill" => fill(text),
        b"clear" => clear(text),
        b"state" => state(text).map(Line::State),
        b"=" => Some(Line::Answer(String::from_utf8_lossy(text).into_owned())),
        word => match table_named(word) {
            Some(table) => row(text).map(|row| Line::Add(table, row)),
            None => question(word, text).map(Line::Question),
        },
    }
}

fn place_named(name: &[u8]) -> Option<usize> {
    PLACES.iter().position(|&place| place == name)
}

fn table_named(name: &[u8]) -> Option<usize> {
    place_named(name).filter(|&place| place != PACKET)
}

fn fill(text: &[u8]) -> Option<Line> {
    let [place, count, byte] = columns(text)?;
    let count = usize::try_from(natural(&count)?).ok().filter(|&count| count <= MOST_BYTES)?;
    match byte[..] {
        [high, low] => Some(Line::Add(place_named(&place)?, vec![byte_of(high, low)?; count])),
        _ => None,
    }
}

fn clear(text: &[u8]) -> Option<Line> {
    if text.is_empty() {
        return Some(Line::Clear(0..PLACES.len()));
    }
    place_named(text).map(|place| Line::Clear(place..place + 1))
}

fn state(text: &[u8]) -> Option<State> {
    let [fresh, apid, count, run, announced] = naturals(text)?;
    if fresh > 1 {
        return None;
    }
    Some(State {
        fresh: fresh == 1,
        apid: apid.try_into().ok()?,
        count: count.try_into().ok()?,
        run: run.try_into().ok()?,
        announced: announced.try_into().ok()?,
    })
}

fn question(word: &[u8], text: &[u8]) -> Option<Question> {
    match word {
        b"import" => room(text).map(Question::Import),
        b"row" => only_row(text),
        b"identify" => text.is_empty().then_some(Question::Identify),
        b"index" => entries(text).map(|room| Question::Index { room }),
        b"search" => list(text).map(|list| Question::Search { list }),
        b"extract" => reading(text).map(|(name, occurrence)| Question::Extract { name, occurrence }),
        b"engineer" => reading(text).map(|(name, occurrence)| Question::Engineer { name, occurrence }),
        b"step" => columns(text).map(|[name]| Question::Step { name }),
        word => inner(word, text).map(Question::Inner),
    }
}

/// "POSITIONS how many positions, as many as cells if it isn't said".
fn room(text: &[u8]) -> Option<Room> {
    if text.is_empty() {
        return Some(Room::MOST);
    }
    if let Some([cells]) = naturals(text) {
        return lent(cells).map(Room::alike);
    }
    let [cells, positions] = naturals(text)?;
    Some(Room { cells: lent(cells)?, positions: lent(positions)? })
}

fn lent(count: u64) -> Option<usize> {
    usize::try_from(count).ok().filter(|&count| count <= MOST_CELLS)
}

fn entries(text: &[u8]) -> Option<usize> {
    if text.is_empty() {
        return Some(ENTRIES);
    }
    let [room] = naturals(text)?;
    usize::try_from(room).ok().filter(|&room| room <= MOST_ENTRIES)
}

/// The entries of a list to search; the empty text is the empty list.
fn list(text: &[u8]) -> Option<Vec<u16>> {
    if text.is_empty() {
        return Some(Vec::new());
    }
    let bytes = bytes(text)?;
    let entry = |column: &[u8]| u16::try_from(natural(column)?).ok();
    let list: Option<Vec<u16>> = bytes.split(|&byte| byte == b'\t').map(entry).collect();
    list.filter(|list| list.len() <= MOST_ENTRIES)
}

/// A table's name and its only row, whose columns follow as they are.
fn only_row(text: &[u8]) -> Option<Question> {
    let end = text.iter().position(|&byte| byte == b'|' || byte == b'\t')?;
    let (table, row) = (table_named(&text[..end])?, row(&text[end + 1..])?);
    Some(Question::Row { table, row })
}

/// A name, and an occurrence that is 0 where it isn't said.
fn reading(text: &[u8]) -> Option<(Vec<u8>, usize)> {
    if let Some([name]) = columns(text) {
        return Some((name, 0));
    }
    let [name, occurrence] = columns(text)?;
    Some((name, natural(&occurrence)? as usize))
}

fn inner(word: &[u8], text: &[u8]) -> Option<Inner> {
    match word {
        b"number" => bytes(text).map(Inner::Number),
        b"width" => naturals(text).map(|[ptc, pfc]| Inner::Width { ptc, pfc }),
        b"unsigned" => naturals(text).map(|[bit, width]| Inner::Unsigned { bit, width }),
        b"signed" => naturals(text).map(|[bit, width]| Inner::Signed { bit, width }),
        b"string" => naturals(text).map(|[bit, bytes]| Inner::String { bit, bytes }),
        b"line" => line(text),
        _ => None,
    }
}

fn line(text: &[u8]) -> Option<Inner> {
    let [x0, y0, x1, y1, x] = columns(text)?;
    Some(Inner::Line { from: [number(&x0)?, number(&y0)?], to: [number(&x1)?, number(&y1)?], x: number(&x)? })
}

impl Question {
    /// The word that asks it.
    pub fn kind(&self) -> &'static str {
        match self {
            Question::Import(_) => "import",
            Question::Row { .. } => "row",
            Question::Identify => "identify",
            Question::Index { .. } => "index",
            Question::Search { .. } => "search",
            Question::Extract { .. } => "extract",
            Question::Engineer { .. } => "engineer",
            Question::Step { .. } => "step",
            Question::Inner(Inner::Number(_)) => "number",
            Question::Inner(Inner::Width { .. }) => "width",
            Question::Inner(Inner::Unsigned { .. }) => "unsigned",
            Question::Inner(Inner::Signed { .. }) => "signed",
            Question::Inner(Inner::String { .. }) => "string",
            Question::Inner(Inner::Line { .. }) => "line",
        }
    }
}

/// What the lines so far have set up.
pub struct Setting {
    places: [Vec<u8>; TABLES + 1],
    pub state: State,
}

impl Default for Setting {
    /// "At the start of a file all tables and the packet are empty and the state is fresh".
    fn default() -> Setting {
        Setting { places: Default::default(), state: State { fresh: true, ..State::default() } }
    }
}

impl Setting {
    pub fn tables(&self) -> Tables<'_> {
        std::array::from_fn(|table| self.places[table].as_slice())
    }

    pub fn packet(&self) -> &[u8] {
        &self.places[PACKET]
    }

    pub fn clear(&mut self, places: Range<usize>) {
        self.places[places].iter_mut().for_each(Vec::clear);
    }

    pub fn set_packet(&mut self, bytes: &[u8]) -> Option<()> {
        self.clear(PACKET..PACKET + 1);
        self.add(PACKET, bytes)
    }

    /// Adds bytes to a table or the packet, if they fit.
    pub fn add(&mut self, place: usize, bytes: &[u8]) -> Option<()> {
        if self.places[place].len() + bytes.len() > MOST_BYTES {
            return None;
        }
        self.places[place].extend_from_slice(bytes);
        Some(())
    }
}
