//! Headers, identification, extraction and validity.

use super::judging::Judged;
use super::reals::real;
use super::refusals::{refuse, refuse_at, Refusal};
use super::rows::{Identification, Pcf, Plf};

/// A packet's header by CCSDS 133.0.
#[derive(Debug, PartialEq)]
pub struct Header {
    pub flagged: bool,
    pub apid: i64,
    pub count: i64,
}

/// Refusals 20 to 23.
pub fn header(packet: &[u8]) -> Result<Header, Refusal> {
    if !(7..=8_192).contains(&packet.len()) {
        return refuse(20);
    }
    let word = |at: usize| i64::from(packet[at]) * 256 + i64::from(packet[at + 1]);
    let (version, is_command) = (packet[0] >> 5, packet[0] & 0x10 != 0);
    if version != 0 || is_command {
        return refuse(21);
    }
    if word(4) + 7 != packet.len() as i64 {
        return refuse(22);
    }
    let flagged = packet[0] & 0x08 != 0;
    if flagged && packet.len() < 9 {
        return refuse(23);
    }
    Ok(Header { flagged, apid: word(0) & 0x7FF, count: word(2) & 0x3FFF })
}

/// A packet's pid row, from 1, and what chose it.
#[derive(Debug, PartialEq)]
pub struct Identity {
    pub row: usize,
    pub spid: i64,
    /// TYPE, STYPE, APID, PI1, PI2.
    pub numbers: [i64; 5],
}

pub fn identify(judged: &Judged, packet: &[u8]) -> Result<Identity, Refusal> {
    let header = header(packet)?;
    let numbers = five_numbers(judged, packet, &header)?;
    match judged.pid.good(&numbers) {
        Some((at, row)) => Ok(Identity { row: at + 1, spid: row.spid, numbers }),
        None => refuse(25),
    }
}

/// 01: "Without the header flag, type, subtype, PI1 and PI2 are 0."
pub fn five_numbers(judged: &Judged, packet: &[u8], header: &Header) -> Result<[i64; 5], Refusal> {
    let apid = header.apid;
    if !header.flagged {
        return Ok([0, 0, apid, 0, 0]);
    }
    let (service, subservice) = (i64::from(packet[7]), i64::from(packet[8]));
    let row = |apid| judged.pic.good(&(service, subservice, apid));
    let Some((_, pic)) = row(Some(apid)).or_else(|| row(None)) else {
        return Ok([service, subservice, apid, 0, 0]);
    };
    let pi1 = identification(packet, pic.pi1)?;
    let pi2 = identification(packet, pic.pi2)?;
    Ok([service, subservice, apid, pi1, pi2])
}

fn identification(packet: &[u8], place: Identification) -> Result<i64, Refusal> {
    if place.unused() {
        return Ok(0);
    }
    match unsigned(packet, 8 * place.offset as usize, place.width as usize) {
        Some(value) => Ok(value as i64),
        None => refuse_at(24, place.offset as u64),
    }
}

/// A field of 1 to 64 bits, most significant bit first, if all its bits lie in the packet.
pub fn unsigned(packet: &[u8], start: usize, width: usize) -> Option<u64> {
    let end = start.checked_add(width)?;
    let bytes = packet.get(start / 8..end.div_ceil(8))?;
    let joined = bytes.iter().fold(0u128, |value, &byte| value << 8 | u128::from(byte));
    let after = bytes.len() * 8 - (end - start / 8 * 8);
    Some((joined >> after & ((1 << width) - 1)) as u64)
}

/// A field in two's complement.
pub fn signed(packet: &[u8], start: usize, width: usize) -> Option<i64> {
    let above = 64 - width;
    unsigned(packet, start, width).map(|value| (value << above) as i64 >> above)
}

/// The part of the packet that a string is: refusal 28 if a bit of it lies outside, else 29 if it isn't on a byte.
pub fn string(packet: &[u8], start: usize, length: usize) -> Result<Raw, Refusal> {
    let byte = start / 8;
    let end = length.checked_mul(8).and_then(|bits| start.checked_add(bits));
    if end.is_none_or(|end| end > 8 * packet.len()) {
        return refuse_at(28, byte as u64);
    }
    if !start.is_multiple_of(8) {
        return refuse_at(29, byte as u64);
    }
    Ok(Raw::Text { start: byte as i64, length: length as i64 })
}

/// A raw value: a number, the part of the packet that a string is, in bytes, or the bits of a real and how many.
#[derive(Clone, Copy, Debug, PartialEq)]
pub enum Raw {
    Integer(i64),
    Text { start: i64, length: i64 },
    Real { bits: u64, width: i64 },
}

#[derive(Debug, PartialEq)]
pub struct Reading {
    pub raw: Raw,
    pub valid: bool,
}

/// A parameter as a packet of one SPID has it.
#[derive(Clone, Copy)]
pub struct Parameter<'j> {
    pub place: &'j Plf<'j>,
    pub kind: &'j Pcf<'j>,
}

/// 01: "26 no good plf row for name and SPID".
pub fn parameter<'j>(judged: &'j Judged, spid: i64, name: &'j [u8]) -> Result<Parameter<'j>, Refusal> {
    let Some((_, place)) = judged.plf.good(&(name, spid)) else { return refuse(26) };
    let Some((_, kind)) = judged.pcf.good(&place.name) else { return refuse(26) };
    Ok(Parameter { place, kind })
}

impl Parameter<'_> {
    /// 01: "Occurrence k, from 0, starts at bit 8 × OFFBY + OFFBI + k × LGOCC".
    fn start(&self, occurrence: i64) -> usize {
        (8 * self.place.offby + self.place.offbi + occurrence * self.place.lgocc) as usize
    }

    /// Refusals 28 and 29.
    pub fn raw(&self, packet: &[u8], occurrence: i64) -> Result<Raw, Refusal> {
        if self.kind.is_string() {
            return string(packet, self.start(occurrence), self.kind.width as usize / 8);
        }
        if self.kind.is_real() {
            return self.real(packet, occurrence);
        }
        self.integer(packet, occurrence).map(Raw::Integer)
    }

    fn real(&self, packet: &[u8], occurrence: i64) -> Result<Raw, Refusal> {
        let start = self.start(occurrence);
        match unsigned(packet, start, self.kind.width as usize) {
            Some(field) => {
                let (bits, width) = real(self.kind.pfc, field);
                Ok(Raw::Real { bits, width })
            }
            None => refuse_at(28, (start / 8) as u64),
        }
    }

    /// The raw number of a parameter that is neither a string nor a real.
    pub fn integer(&self, packet: &[u8], occurrence: i64) -> Result<i64, Refusal> {
        let (start, width) = (self.start(occurrence), self.kind.width as usize);
        let value = match self.kind.ptc {
            4 => signed(packet, start, width),
            _ => unsigned(packet, start, width).map(|value| value as i64),
        };
        value.map_or_else(|| refuse_at(28, (start / 8) as u64), Ok)
    }
}

/// The raw number of a parameter's occurrence 0, if it can be read.
pub fn readable<'j>(
    judged: &'j Judged,
    packet: &[u8],
    spid: i64,
    name: &'j [u8],
) -> Option<(i64, &'j Pcf<'j>)> {
    let parameter = parameter(judged, spid, name).ok().filter(|parameter| parameter.kind.is_integer())?;
    Some((parameter.integer(packet, 0).ok()?, parameter.kind))
}

/// 01: "A reading is valid only when its validity parameter's own reading, occurrence 0 of the same packet,
/// is valid and equals the VALPAR of the reading's own pcf row".
pub fn is_valid(judged: &Judged, packet: &[u8], spid: i64, row: &Pcf) -> bool {
    let (mut asked, mut valpar) = (row.valid, row.valpar);
    while let Some(name) = asked {
        match readable(judged, packet, spid, name) {
            Some((value, row)) if value == valpar => (asked, valpar) = (row.valid, row.valpar),
            _ => return false,
        }
    }
    true
}

/// A parameter's occurrence with its kind: refusals 20 to 29.
pub fn read<'j>(
    judged: &'j Judged,
    packet: &[u8],
    name: &'j [u8],
    occurrence: usize,
) -> Result<(Reading, &'j Pcf<'j>), Refusal> {
    let spid = identify(judged, packet)?.spid;
    let parameter = parameter(judged, spid, name)?;
    if occurrence >= parameter.place.nbocc as usize {
        return refuse(27);
    }
    let raw = parameter.raw(packet, occurrence as i64)?;
    let valid = is_valid(judged, packet, spid, parameter.kind);
    Ok((Reading { raw, valid }, parameter.kind))
}

pub fn extract(judged: &Judged, packet: &[u8], name: &[u8], occurrence: usize) -> Result<Reading, Refusal> {
    read(judged, packet, name, occurrence).map(|(reading, _)| reading)
}
