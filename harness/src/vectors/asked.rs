//! Who is asked: the proved library through its C interface, and the reference.

use super::script::Inner;
use super::spelled;
use crate::answers::{answer, search_answer, Answer, Places};
use crate::proved;
use crate::reference::index::{make, search};
use crate::reference::limits::{limit_step, State};
use crate::reference::packets::{extract, identify};
use crate::reference::values::engineer;
use crate::reference::{self, judged, Tables};

/// Places that nothing has been written to.
const BLANK: Places = [-1; 8];

pub trait Asked {
    fn import(&self, tables: &Tables, cells: &mut [u16], positions: &mut [u16]) -> Answer;
    fn identify(&self, tables: &Tables, packet: &[u8]) -> Answer;
    fn index(&self, tables: &Tables, rows: &mut [u16]) -> Answer;
    fn search(&self, tables: &Tables, packet: &[u8], list: &[u16]) -> Answer;
    fn extract(&self, tables: &Tables, packet: &[u8], name: &[u8], occurrence: usize) -> Answer;
    fn engineer(&self, tables: &Tables, packet: &[u8], name: &[u8], occurrence: usize) -> Answer;
    fn step(&self, tables: &Tables, packet: &[u8], name: &[u8], state: State) -> Answer;

    /// The answer to a question about what can be seen only inside, where it can be asked.
    fn inner(&self, question: &Inner, packet: &[u8]) -> Option<String>;
}

pub struct Library;

impl Asked for Library {
    fn import(&self, tables: &Tables, cells: &mut [u16], positions: &mut [u16]) -> Answer {
        proved::import(tables, cells, positions, BLANK)
    }

    fn identify(&self, tables: &Tables, packet: &[u8]) -> Answer {
        proved::identify(tables, packet, BLANK)
    }

    fn index(&self, tables: &Tables, rows: &mut [u16]) -> Answer {
        proved::index(tables, rows, BLANK)
    }

    fn search(&self, tables: &Tables, packet: &[u8], list: &[u16]) -> Answer {
        proved::search(tables, packet, list, BLANK)
    }

    fn extract(&self, tables: &Tables, packet: &[u8], name: &[u8], occurrence: usize) -> Answer {
        proved::extract(tables, packet, name, occurrence, BLANK)
    }

    fn engineer(&self, tables: &Tables, packet: &[u8], name: &[u8], occurrence: usize) -> Answer {
        proved::engineer(tables, packet, name, occurrence, BLANK)
    }

    fn step(&self, tables: &Tables, packet: &[u8], name: &[u8], state: State) -> Answer {
        proved::limit_step(tables, packet, name, state.numbers(), BLANK)
    }

    fn inner(&self, _: &Inner, _: &[u8]) -> Option<String> {
        None
    }
}

pub struct Reference;

impl Asked for Reference {
    fn import(&self, tables: &Tables, cells: &mut [u16], positions: &mut [u16]) -> Answer {
        let imported = reference::import(tables, cells.len(), positions.len());
        if let Ok(imported) = &imported {
            imported.write(cells, positions);
        }
        answer(&imported, BLANK)
    }

    fn identify(&self, tables: &Tables, packet: &[u8]) -> Answer {
        answer(&judged(tables).and_then(|judged| identify(&judged, packet)), BLANK)
    }

    fn index(&self, tables: &Tables, rows: &mut [u16]) -> Answer {
        let made = judged(tables).and_then(|judged| make(&judged, rows.len()));
        if let Ok(index) = &made {
            rows[..index.len()].copy_from_slice(index);
        }
        answer(&made, BLANK)
    }

    fn search(&self, tables: &Tables, packet: &[u8], list: &[u16]) -> Answer {
        search_answer(&judged(tables).and_then(|judged| search(&judged, packet, list)), BLANK)
    }

    fn extract(&self, tables: &Tables, packet: &[u8], name: &[u8], occurrence: usize) -> Answer {
        answer(&judged(tables).and_then(|judged| extract(&judged, packet, name, occurrence)), BLANK)
    }

    fn engineer(&self, tables: &Tables, packet: &[u8], name: &[u8], occurrence: usize) -> Answer {
        answer(&judged(tables).and_then(|judged| engineer(&judged, packet, name, occurrence)), BLANK)
    }

    fn step(&self, tables: &Tables, packet: &[u8], name: &[u8], state: State) -> Answer {
        answer(&judged(tables).and_then(|judged| limit_step(&judged, packet, name, state)), BLANK)
    }

    fn inner(&self, question: &Inner, packet: &[u8]) -> Option<String> {
        Some(match *question {
            Inner::Number(ref text) => spelled::number(text),
            Inner::Width { ptc, pfc } => spelled::width(ptc, pfc),
            Inner::Unsigned { bit, width } => spelled::unsigned(packet, bit, width),
            Inner::Signed { bit, width } => spelled::signed(packet, bit, width),
            Inner::String { bit, bytes } => spelled::string(packet, bit, bytes),
            Inner::Line { from, to, x } => spelled::line(from, to, x),
        })
    }
}
