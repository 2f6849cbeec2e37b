//! Packets that the tables know, and damaged ones.

use super::mutations::noise_line;
use crate::random::Random;
use crate::reference::packets::identify;
use crate::reference::rows::{Pcf, Pid, Plf};
use crate::reference::Judged;

/// A packet, mostly of a row of pid, with values that the tables speak of.
pub fn packet(random: &mut Random, judged: &Judged) -> Vec<u8> {
    let rows: Vec<&Pid> = judged.pid.well_formed().filter(|row| row.numbers[2] < 2_048).collect();
    let mut packet = if rows.is_empty() || random.chance(3) {
        let length = random.below(40);
        unknown(random, length)
    } else {
        let row = random.pick(&rows);
        matching(random, judged, row)
    };
    if random.chance(8) {
        damage(random, &mut packet);
    }
    packet
}

fn bytes(random: &mut Random, length: usize) -> Vec<u8> {
    let small = random.chance(50);
    (0..length).map(|_| if small { *random.pick(&[0, 0, 0, 1, 2, 255]) } else { random.byte() }).collect()
}

/// Bytes that mostly have the header of a packet.
fn unknown(random: &mut Random, length: usize) -> Vec<u8> {
    let mut packet = bytes(random, length);
    if random.chance(80) {
        put(&mut packet, 0, 4, 0);
        set_length(&mut packet);
    }
    packet
}

/// A packet of a pid row.
fn matching(random: &mut Random, judged: &Judged, row: &Pid) -> Vec<u8> {
    let places: Vec<&Plf> = judged.plf.well_formed().filter(|place| place.spid == row.spid).collect();
    let length = length(random, judged, &places);
    let mut packet = bytes(random, length);
    for place in &places {
        if random.chance(70) {
            put_interesting(random, judged, &mut packet, place);
        }
    }
    for place in &places {
        put_conditions(random, judged, &mut packet, row.spid, place);
    }
    put_header(random, judged, &mut packet, row);
    packet
}

/// Long enough for the fields, mostly.
fn length(random: &mut Random, judged: &Judged, places: &[&Plf]) -> usize {
    let end = |place: &&Plf| {
        let width = kind_of(judged, place.name).map_or(0, |kind| kind.width);
        8 * place.offby + place.offbi + (place.nbocc - 1) * place.lgocc + width
    };
    let needed = (places.iter().map(end).max().unwrap_or(0) as usize).div_ceil(8);
    let length = match random.below(20) {
        0 => random.below(needed + 1),
        1 => needed.saturating_sub(1),
        2..=8 => needed,
        _ => needed + random.below(12),
    };
    if random.chance(60) {
        length.clamp(20, 8_192)
    } else {
        length.clamp(7, 8_192)
    }
}

fn kind_of<'j>(judged: &'j Judged, name: &[u8]) -> Option<&'j Pcf<'j>> {
    judged.pcf.well_formed().find(|row| row.name == name)
}

/// Writes a field, where it lies in the packet.
fn put(packet: &mut [u8], start: i64, width: i64, value: i64) {
    for bit in 0..width.min(64) {
        let at = start + width - 1 - bit;
        if let Some(byte) = packet.get_mut((at / 8) as usize) {
            let mask = 0x80 >> (at % 8);
            *byte = if value >> bit & 1 == 1 { *byte | mask } else { *byte & !mask };
        }
    }
}

/// A value near what curves, texts and limits speak of, at each occurrence.
fn put_interesting(random: &mut Random, judged: &Judged, packet: &mut [u8], place: &Plf) {
    let Some(kind) = kind_of(judged, place.name) else { return };
    let curve = kind.curtx.unwrap_or(b"");
    let xs = judged.cap.well_formed().filter(|row| row.numbr == curve).map(|row| row.x);
    let texts = judged.txp.well_formed().filter(|row| row.numbr == curve).flat_map(|row| [row.from, row.to]);
    let limits =
        judged.ocp.well_formed().filter(|row| row.name == kind.name).flat_map(|row| [row.low, row.high]);
    let ends = [-2_147_483_648, 2_147_483_647, 4_294_967_295];
    let polynomials = judged.mcf.well_formed().filter(|row| row.ident == curve).flat_map(|_| ends);
    let values: Vec<i64> = xs.chain(texts).chain(limits).chain(polynomials).chain([0]).collect();
    for occurrence in 0..place.nbocc.min(8) {
        let value = match kind.is_real() {
            true => real_field(random, kind.pfc),
            false => random.pick(&values) + random.between(-3, 3),
        };
        let start = 8 * place.offby + place.offbi + occurrence * place.lgocc;
        put(packet, start, kind.width, value);
    }
}

/// The bits of a real: NaNs and infinities of IEEE 754; mantissas of one bit, of all bits and 0 of MIL-STD-1750A.
fn real_field(random: &mut Random, pfc: i64) -> i64 {
    let byte = i64::from(random.byte());
    let exponent = *random.pick(&[0, 0x7F, 0x80, 0xFF, byte]);
    let mantissa = |random: &mut Random, width: i64| match random.below(4) {
        0 => 1 << random.between(0, width - 1),
        1 => -(1 << random.between(0, width - 1)),
        2 => 0,
        _ => random.between(-(1 << (width - 1)), (1 << (width - 1)) - 1),
    };
    match pfc {
        1 => *random.pick(&[0x7F80_0000, 0x7F80_0001, 0xFFC0_0000, 0x8000_0000, 0x3F00_0000]),
        2 => (*random.pick(&[0x7FF, 0xFFF, 0x800, 0x3FE]) << 52) + random.between(0, 1),
        3 => mantissa(random, 24) << 8 | exponent,
        _ => {
            let mantissa = mantissa(random, 40);
            (mantissa >> 16) << 24 | exponent << 16 | mantissa & 0xFFFF
        }
    }
}

/// Mostly fulfils what a parameter's validity and its checks ask of others.
fn put_conditions(random: &mut Random, judged: &Judged, packet: &mut [u8], spid: i64, place: &Plf) {
    let valid = kind_of(judged, place.name).and_then(|kind| Some((kind.valid?, kind.valpar)));
    let checks = judged.ocp.well_formed().filter(|row| row.name == place.name);
    let released = checks.filter_map(|row| Some((row.rlchk?, row.valpar)));
    for (name, value) in released.chain(valid) {
        let asked = judged.plf.well_formed().find(|row| row.name == name && row.spid == spid);
        if let (Some(asked), Some(kind), true) = (asked, kind_of(judged, name), random.chance(85)) {
            put(packet, 8 * asked.offby + asked.offbi, kind.width, value);
        }
    }
}

fn put_header(random: &mut Random, judged: &Judged, packet: &mut [u8], row: &Pid) {
    let [service, subservice, apid, pi1, pi2] = row.numbers;
    let plain = service == 0 && subservice == 0 && pi1 == 0 && pi2 == 0;
    let flagged = packet.len() >= 9 && (!plain || random.chance(50));
    if flagged {
        put(packet, 56, 8, service);
        put(packet, 64, 8, subservice);
        let pic = |apid| judged.pic.good(&(service, subservice, apid));
        if let Some((_, pic)) = pic(Some(apid)).or_else(|| pic(None)) {
            put(packet, 8 * pic.pi1.offset.max(0), if pic.pi1.unused() { 0 } else { pic.pi1.width }, pi1);
            put(packet, 8 * pic.pi2.offset.max(0), if pic.pi2.unused() { 0 } else { pic.pi2.width }, pi2);
        }
    }
    put(packet, 0, 5, i64::from(flagged));
    put(packet, 5, 11, apid);
    set_length(packet);
}

/// Makes the length field that of the packet.
fn set_length(packet: &mut [u8]) {
    let length = packet.len() as i64;
    put(packet, 32, 16, length - 7);
}

fn damage(random: &mut Random, packet: &mut Vec<u8>) {
    match random.below(12) {
        0 => packet.truncate(random.below(8)),
        1 => packet.resize(8_191 + random.below(3), 0),
        2..=3 => put(packet, random.between(0, 3), 1, 1),
        4 => packet.push(0),
        5 => {
            packet.resize(7 + random.below(2), 0);
            put(packet, 0, 5, 1);
        }
        6..=7 => packet.truncate(packet.len() / 2),
        8 => packet.resize(8_191 + random.below(3), 0x55),
        _ => {
            let at = random.below(packet.len());
            if let Some(byte) = packet.get_mut(at) {
                *byte = random.byte();
            }
            return;
        }
    }
    if random.chance(70) && packet.len() >= 7 {
        set_length(packet);
    }
}

/// What is asked of a packet: mostly a parameter that lies in it, and one that has limits too.
pub struct Asked {
    pub name: Vec<u8>,
    pub occurrence: usize,
    pub limited: Vec<u8>,
}

pub fn asked(random: &mut Random, judged: &Judged, packet: &[u8]) -> Asked {
    let spid = identify(judged, packet).map_or(0, |identity| identity.spid);
    let placed: Vec<&[u8]> =
        judged.plf.well_formed().filter(|row| row.spid == spid).map(|row| row.name).collect();
    let limits = judged.ocf.well_formed().map(|row| row.name);
    let limited: Vec<&[u8]> = limits.filter(|name| placed.contains(name)).collect();
    let name = name(random, judged, &placed);
    let occurrence = occurrence(random, judged, spid, &name);
    Asked { name, occurrence, limited: self::name(random, judged, &limited) }
}

/// One of these names mostly, else any that the tables have, or one that is nearly it.
fn name(random: &mut Random, judged: &Judged, likely: &[&[u8]]) -> Vec<u8> {
    let parameters = judged.pcf.well_formed().map(|row| row.name);
    let limits = judged.ocf.well_formed().map(|row| row.name);
    let known: Vec<&[u8]> = parameters.chain(limits).collect();
    let names = if likely.is_empty() || random.chance(8) { &known } else { likely };
    if names.is_empty() {
        return noise_line(random);
    }
    let mut name = random.pick(names).to_vec();
    if random.chance(5) {
        spoil(random, &mut name);
    }
    name
}

/// A name that is too long, too short, or another.
fn spoil(random: &mut Random, name: &mut Vec<u8>) {
    match random.below(5) {
        0 => name.push(0),
        1 => name.push(b' '),
        2 => name.extend(b"AAAAAAAA"),
        3 => name.truncate(name.len() - 1),
        _ => *name = noise_line(random),
    }
}

/// An occurrence of a parameter, mostly below its NBOCC.
fn occurrence(random: &mut Random, judged: &Judged, spid: i64, name: &[u8]) -> usize {
    let place = judged.plf.well_formed().find(|row| row.name == name && row.spid == spid);
    let nbocc = place.map_or(1, |row| row.nbocc as usize);
    match random.below(40) {
        0 => nbocc,
        1 => random.below(20_000),
        2 => random.word() as usize,
        _ => random.below(nbocc.min(10)),
    }
}
