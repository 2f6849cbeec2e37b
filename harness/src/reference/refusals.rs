//! Refused calls.

/// 01: "A refusal writes nothing and returns number and place".
#[derive(Clone, Copy, Debug, PartialEq, Eq)]
pub struct Refusal {
    pub number: u64,
    pub place: u64,
}

pub fn refuse<T>(number: u64) -> Result<T, Refusal> {
    refuse_at(number, 0)
}

pub fn refuse_at<T>(number: u64, place: u64) -> Result<T, Refusal> {
    Err(Refusal { number, place })
}
