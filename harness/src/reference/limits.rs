//! The limit state and its step.

use super::judging::Judged;
use super::packets::{header, identify, is_valid, parameter, readable, Parameter};
use super::refusals::{refuse, Refusal};
use super::rows::{Ocf, Ocp};
use super::values::by_curve;

#[derive(Clone, Copy, Debug, Default, PartialEq)]
pub struct State {
    pub fresh: bool,
    pub apid: u16,
    pub count: u16,
    pub run: u8,
    pub announced: u8,
}

impl State {
    /// As the C interface keeps it: fresh, APID, count, run, announced.
    pub fn numbers(self) -> [i64; 5] {
        [self.fresh.into(), self.apid.into(), self.count.into(), self.run.into(), self.announced.into()]
    }

    /// The state that five numbers are, where each is one of its field.
    pub fn of([fresh, apid, count, run, announced]: [i64; 5]) -> Option<State> {
        if !(0..=1).contains(&fresh) {
            return None;
        }
        Some(State {
            fresh: fresh == 1,
            apid: apid.try_into().ok()?,
            count: count.try_into().ok()?,
            run: run.try_into().ok()?,
            announced: announced.try_into().ok()?,
        })
    }
}

pub const WITHIN: u8 = 0;
pub const SOFT: u8 = 1;
pub const HARD: u8 = 2;

/// Not refusal 34.
fn is_state(state: &State) -> bool {
    let numbers = state.run <= 99 && state.announced <= HARD && state.apid <= 2_047 && state.count <= 16_383;
    numbers && (!state.fresh || *state == State { fresh: true, ..State::default() })
}

/// 01: "A packet is newer when its count is ahead of the last by 1 to 8,191 modulo 16,384".
fn is_newer(last: u16, count: i64) -> bool {
    (1..=8_191).contains(&(count - i64::from(last)).rem_euclid(16_384))
}

/// 01: "a limit step checks 34, 20–25, 33, 26, 36, 35, 28, 30, 31".
pub fn limit_step(judged: &Judged, packet: &[u8], name: &[u8], state: State) -> Result<State, Refusal> {
    if !is_state(&state) {
        return refuse(34);
    }
    let spid = identify(judged, packet)?.spid;
    let header = header(packet)?;
    let Some((_, limit)) = judged.ocf.good(&name) else { return refuse(33) };
    let parameter = parameter(judged, spid, name)?;
    if !state.fresh && header.apid != i64::from(state.apid) {
        return refuse(36);
    }
    if !state.fresh && !is_newer(state.count, header.count) {
        return refuse(35);
    }
    let raws = raw_values(&parameter, packet)?;
    let mut after = State { fresh: false, apid: header.apid as u16, count: header.count as u16, ..state };
    if is_valid(judged, packet, spid, parameter.kind) {
        let checks = applying_checks(judged, packet, spid, name);
        for value in checked_values(judged, limit, &parameter, raws)? {
            after = after_reading(after, limit, severity(&checks, value));
        }
    }
    Ok(after)
}

/// The same from five numbers: those that are no state are refused as a state is that no step takes.
pub fn limit_step_from(
    judged: &Judged,
    packet: &[u8],
    name: &[u8],
    numbers: [i64; 5],
) -> Result<State, Refusal> {
    let Some(state) = State::of(numbers) else { return refuse(34) };
    limit_step(judged, packet, name, state)
}

/// The raw values of all occurrences in order, or refusal 28 at the first that leaves the packet.
fn raw_values(parameter: &Parameter, packet: &[u8]) -> Result<Vec<i64>, Refusal> {
    (0..parameter.place.nbocc).map(|occurrence| parameter.integer(packet, occurrence)).collect()
}

/// 01: "the value is the raw one under INTER U, the engineering one under C"; 30 is sought over all before 31.
fn checked_values(
    judged: &Judged,
    limit: &Ocf,
    parameter: &Parameter,
    raws: Vec<i64>,
) -> Result<Vec<i64>, Refusal> {
    let (b'C', Some(curve)) = (limit.inter, parameter.kind.curtx) else { return Ok(raws) };
    let values: Vec<_> = raws.iter().map(|&raw| by_curve(judged, curve, raw)).collect();
    let refusals = values.iter().filter_map(|value| value.err());
    match refusals.min_by_key(|refusal| refusal.number) {
        Some(refusal) => Err(refusal),
        None => values.into_iter().collect(),
    }
}

/// 01: "A check applies when RLCHK is empty or the raw value of its occurrence 0, valid or not, equals the
/// check's VALPAR; unreadable means no."
fn applying_checks<'j>(judged: &'j Judged, packet: &[u8], spid: i64, name: &[u8]) -> Vec<&'j Ocp<'j>> {
    let applies = |check: &&Ocp| match check.rlchk {
        Some(name) => readable(judged, packet, spid, name).is_some_and(|(value, _)| value == check.valpar),
        None => true,
    };
    let checks = judged.ocp.good_of(&judged.checks, name);
    checks.map(|(_, check)| check).filter(applies).collect()
}

/// 01: "Hard if an applying H check is violated, else soft if an S one is, else within."
fn severity(checks: &[&Ocp], value: i64) -> u8 {
    let violated = |check: &&&Ocp| value < check.low || value > check.high;
    let severity = |check: &&Ocp| if check.severity == b'H' { HARD } else { SOFT };
    checks.iter().filter(violated).map(severity).max().unwrap_or(WITHIN)
}

/// 01: "Within sets run and announced to 0. A violation raises run, at most to 99; from NBCHCK on, announced
/// is that severity, before it announced stays."
fn after_reading(state: State, limit: &Ocf, severity: u8) -> State {
    if severity == WITHIN {
        return State { run: 0, announced: WITHIN, ..state };
    }
    let run = (state.run + 1).min(99);
    let announced = if i64::from(run) >= limit.nbchck { severity } else { state.announced };
    State { run, announced, ..state }
}
