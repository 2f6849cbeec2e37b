//! Answers as the C interface gives them.

use crate::reference::index::Search;
use crate::reference::limits::State;
use crate::reference::packets::{Identity, Raw, Reading};
use crate::reference::values::Value;
use crate::reference::{Imported, Refusal};

/// The eight places that an answer's values are written to, from the first on.
pub type Places = [i64; 8];

/// The result of a question, 0 or number × 2^32 + place, and the places after it.
#[derive(Clone, Copy, Debug, PartialEq)]
pub struct Answer {
    pub result: u64,
    pub places: Places,
}

pub trait Values {
    fn values(&self) -> Vec<i64>;
}

/// The answer to a question asked with these places.
pub fn answer<T: Values>(answered: &Result<T, Refusal>, mut places: Places) -> Answer {
    match answered {
        Ok(answer) => {
            let values = answer.values();
            places[..values.len()].copy_from_slice(&values);
            Answer { result: 0, places }
        }
        Err(Refusal { number, place }) => Answer { result: (number << 32) + place, places },
    }
}

/// The answer to a search: "The answer, 25 included, … tells how many entries were compared". Refused by 25 it is told
/// in the first place, and no other refusal writes anything.
pub fn search_answer(searched: &Result<Search, Refusal>, mut places: Places) -> Answer {
    match searched {
        Ok(Search { identity, compared }) => {
            let told_at = if identity.is_ok() { 7 } else { 0 };
            places[told_at] = *compared as i64;
            answer(identity, places)
        }
        Err(refusal) => answer::<Identity>(&Err(*refusal), places),
    }
}

/// The answer to a making: how many entries the index has.
impl Values for Vec<u16> {
    fn values(&self) -> Vec<i64> {
        vec![self.len() as i64]
    }
}

impl Values for Imported {
    fn values(&self) -> Vec<i64> {
        vec![self.cells.len() as i64, self.good as i64]
    }
}

impl Values for Identity {
    fn values(&self) -> Vec<i64> {
        let [service, subservice, apid, pi1, pi2] = self.numbers;
        vec![self.row as i64, self.spid, apid, service, subservice, pi1, pi2]
    }
}

impl Values for Reading {
    fn values(&self) -> Vec<i64> {
        match self.raw {
            Raw::Integer(value) => vec![0, value, i64::from(self.valid)],
            Raw::Text { start, length } => vec![1, start, length, i64::from(self.valid)],
            Raw::Real { bits, width } => vec![2, bits as i64, width, i64::from(self.valid)],
        }
    }
}

impl Values for Value {
    fn values(&self) -> Vec<i64> {
        match *self {
            Value::Integer(value) => vec![0, value],
            Value::Double(value) => vec![3, value.to_bits() as i64],
            Value::String { start, length } => vec![1, start, length],
            Value::Real { bits, width } => vec![4, bits as i64, width],
            Value::Text { row, start, length } => vec![2, row as i64, start as i64, length as i64],
        }
    }
}

impl Values for State {
    fn values(&self) -> Vec<i64> {
        self.numbers().to_vec()
    }
}
