//! Tables whose rows are good, or nearly all.

use super::spelling::{coefficient, number, Names};
use super::{row, RowSet, CAF, CAP, MCF, OCF, OCP, PCF, PIC, PID, PLF, TXF, TXP};
use crate::random::Random;
use crate::reference::coefficients::Coefficient;
use crate::reference::rows::field_width;

/// How many of each to make.
#[derive(Clone, Copy)]
pub struct Size {
    pub packets: usize,
    pub parameters: usize,
    pub curves: usize,
    pub texts: usize,
    pub polynomials: usize,
}

impl Size {
    /// Two to some forty rows in all.
    pub fn small(random: &mut Random) -> Self {
        Size {
            packets: 1 + random.below(3),
            parameters: 1 + random.below(7),
            curves: random.below(3),
            texts: random.below(3),
            polynomials: random.below(3),
        }
    }

    pub fn large(random: &mut Random) -> Self {
        Size {
            packets: 20 + random.below(200),
            parameters: 50 + random.below(300),
            curves: 10 + random.below(60),
            texts: 10 + random.below(60),
            polynomials: 10 + random.below(60),
        }
    }
}

struct Packet {
    spid: i64,
    valid: bool,
}

struct Parameter {
    name: Vec<u8>,
    ptc: i64,
    pfc: i64,
    width: i64,
    natur: u8,
    categ: u8,
    curtx: Vec<u8>,
    by_polynomial: bool,
}

impl Parameter {
    fn is_integer(&self) -> bool {
        (1..=4).contains(&self.ptc)
    }
}

pub fn consistent(random: &mut Random, size: Size) -> RowSet {
    let mut rows = RowSet::default();
    let mut names = Names::default();
    let curves: Vec<_> = (0..size.curves).map(|_| curve(random, &mut rows, &mut names)).collect();
    let texts: Vec<_> = (0..size.texts).map(|_| texts(random, &mut rows, &mut names)).collect();
    let polynomials: Vec<_> =
        (0..size.polynomials).map(|_| polynomial(random, &mut rows, &mut names)).collect();
    let mut parameters: Vec<Parameter> = Vec::new();
    for _ in 0..size.parameters {
        let next = parameter(random, &mut names, &curves, &texts, &polynomials);
        pcf(random, &mut rows, &next, &parameters);
        parameters.push(next);
    }
    let packets = packets(random, &mut rows, size.packets);
    for parameter in &parameters {
        places(random, &mut rows, parameter, &packets);
        limits(random, &mut rows, parameter, &parameters);
    }
    for table in &mut rows {
        random.shuffle(table);
    }
    rows
}

/// A caf row and its points.
fn curve(random: &mut Random, rows: &mut RowSet, names: &mut Names) -> Vec<u8> {
    let name = names.fresh(random, 10);
    let count = if random.chance(2) { 100 } else { random.between(2, 5) };
    let steep = random.chance(25);
    let mut x = if steep { random.between(-1_073_741_824, 100) } else { random.between(-300, 40) };
    for _ in 0..count {
        let y = if steep { random.between(-1_073_741_824, 1_073_741_823) } else { random.between(-500, 500) };
        let columns = [(1, name.clone()), (2, number(random, x, 14)), (3, number(random, y, 14))];
        rows[CAP].push(row(random, CAP, &columns));
        x += random.between(1, if steep { 5 } else { 90 });
    }
    let columns = [
        (1, name.clone()),
        (3, vec![*random.pick(b"IU")]),
        (4, vec![*random.pick(b"IU")]),
        (5, optional(random, b"DHO")),
        (7, number(random, count, 3)),
        (8, optional(random, b"PF")),
    ];
    rows[CAF].push(row(random, CAF, &columns));
    name
}

/// A txf row and its texts.
fn texts(random: &mut Random, rows: &mut RowSet, names: &mut Names) -> Vec<u8> {
    let name = names.fresh(random, 10);
    let count = random.between(1, 4);
    let mut from = random.between(-40, 20);
    for _ in 0..count {
        let to = from + random.between(0, 60);
        let text = super::spelling::text(random, 14);
        let columns =
            [(1, name.clone()), (2, number(random, from, 14)), (3, number(random, to, 14)), (4, text)];
        rows[TXP].push(row(random, TXP, &columns));
        from += random.between(1, 70);
    }
    let columns = [(1, name.clone()), (3, vec![*random.pick(b"IU")]), (4, number(random, count, 3))];
    rows[TXF].push(row(random, TXF, &columns));
    name
}

/// An mcf row, with coefficients as good as they can be.
fn polynomial(random: &mut Random, rows: &mut RowSet, names: &mut Names) -> Vec<u8> {
    let name = names.fresh(random, 10);
    let zero = random.chance(5);
    let mut columns = vec![(1, name.clone()), (3, good_coefficient(random))];
    for column in 4..=7 {
        let text = if random.chance(30) { Vec::new() } else { good_coefficient(random) };
        columns.push((column, text));
    }
    if zero {
        // minus zero throughout shows where the value starts
        columns.iter_mut().skip(1).for_each(|(_, text)| *text = b"-0".to_vec());
    }
    rows[MCF].push(row(random, MCF, &columns));
    name
}

fn good_coefficient(random: &mut Random) -> Vec<u8> {
    loop {
        let text = coefficient(random, 14);
        if Coefficient::read(&text).is_ok() {
            return text;
        }
    }
}

fn optional(random: &mut Random, letters: &[u8]) -> Vec<u8> {
    if random.chance(50) {
        vec![*random.pick(letters)]
    } else {
        Vec::new()
    }
}

/// A type and its PFC.
fn field_type(random: &mut Random) -> (i64, i64) {
    match random.below(22) {
        0..=1 => (1, 0),
        2..=4 => (2, random.between(1, 32)),
        5..=10 => (3, random.between(0, 14)),
        11..=15 => (4, random.between(0, 14)),
        16 => (6, random.between(1, 32)),
        17 => (7, random.between(1, 4)),
        18 => (7, random.between(1, 255)),
        19..=20 => (5, random.between(1, 4)),
        _ => (8, random.between(1, 6)),
    }
}

fn parameter(
    random: &mut Random,
    names: &mut Names,
    curves: &[Vec<u8>],
    texts: &[Vec<u8>],
    polynomials: &[Vec<u8>],
) -> Parameter {
    let (ptc, pfc) = field_type(random);
    let integer = (1..=4).contains(&ptc);
    let (categ, curtx, by_polynomial) = match ptc {
        8 => (b'T', Vec::new(), false),
        _ if integer && !texts.is_empty() && random.chance(25) => (b'S', random.pick(texts).clone(), false),
        _ if integer && !polynomials.is_empty() && random.chance(30) => {
            (b'N', random.pick(polynomials).clone(), true)
        }
        _ if integer && !curves.is_empty() && random.chance(60) => (b'N', random.pick(curves).clone(), false),
        _ => (b'N', Vec::new(), false),
    };
    let natur = if random.chance(90) { b'R' } else { *random.pick(b"DPHSCCCC") };
    let width = field_width(ptc, pfc).expect("a type of the table has a width");
    Parameter { name: names.fresh(random, 8), ptc, pfc, width, natur, categ, curtx, by_polynomial }
}

/// VALPAR is mostly a value that a narrow field can have.
fn valpar(random: &mut Random) -> Vec<u8> {
    let value = match random.below(10) {
        0..=3 => return Vec::new(),
        4..=7 => *random.pick(&[0, 1, -1, 3]),
        8 => random.between(0, 15),
        _ => random.between(-9_999, 65_535),
    };
    number(random, value, 5)
}

/// A pcf row whose VALID, if any, names an earlier one.
fn pcf(random: &mut Random, rows: &mut RowSet, parameter: &Parameter, earlier: &[Parameter]) {
    let chained: Vec<_> = earlier.iter().filter(|earlier| earlier.is_integer()).collect();
    let valid = if !chained.is_empty() && random.chance(50) {
        random.pick(&chained).name.clone()
    } else {
        Vec::new()
    };
    let columns = [
        (1, parameter.name.clone()),
        (5, number(random, parameter.ptc, 2)),
        (6, number(random, parameter.pfc, 5)),
        (8, valid),
        (10, vec![parameter.categ]),
        (11, vec![parameter.natur]),
        (12, parameter.curtx.clone()),
        (13, optional(random, b"PF")),
        (18, valpar(random)),
    ];
    rows[PCF].push(row(random, PCF, &columns));
}

/// An offset and a width of PI1 or PI2, and a value that fits.
fn identification(random: &mut Random, from: i64) -> (i64, i64, i64) {
    if random.chance(35) {
        return (-1, random.between(0, 32), 0);
    }
    let width = random.between(1, 32);
    let greatest = (1i64 << width.min(31)) - 1;
    let value =
        if random.chance(80) { random.between(0, greatest.min(3)) } else { random.between(0, greatest) };
    (from + random.between(0, 2), width, value)
}

/// pid rows, and for most a pic row that finds them; no two alike.
fn packets(random: &mut Random, rows: &mut RowSet, count: usize) -> Vec<Packet> {
    let mut packets = Vec::new();
    let (mut keys, mut pic_keys) = (std::collections::HashSet::new(), std::collections::HashSet::new());
    let mut spid = random.between(1, 5);
    while packets.len() < count {
        let service = [0, 1, 3, 255, random.between(0, 255)][random.below(5)];
        let subservice = [0, 25, random.between(0, 255)][random.below(3)];
        let apid = if random.chance(93) {
            [0, 10, 2_047, random.between(0, 2_047)][random.below(4)]
        } else {
            random.between(0, 65_535)
        };
        let pi1 = identification(random, 9);
        let pi2 = identification(random, 15);
        let pic_apid = random.chance(50).then_some(apid);
        let with_pic = random.chance(75) && pic_keys.insert((service, subservice, pic_apid));
        if with_pic {
            pic(random, rows, (service, subservice, pic_apid), pi1, pi2);
        }
        let (pi1, pi2) = if with_pic { (pi1.2, pi2.2) } else { (0, 0) };
        if !keys.insert([service, subservice, apid, pi1, pi2]) {
            continue;
        }
        spid += if random.chance(90) { random.between(1, 9) } else { random.between(1, 4_000_000) };
        packets.push(pid(random, rows, [service, subservice, apid, pi1, pi2], spid));
    }
    packets
}

fn pic(
    random: &mut Random,
    rows: &mut RowSet,
    key: (i64, i64, Option<i64>),
    pi1: (i64, i64, i64),
    pi2: (i64, i64, i64),
) {
    let columns = [
        (1, number(random, key.0, 3)),
        (2, number(random, key.1, 3)),
        (3, number(random, pi1.0, 5)),
        (4, number(random, pi1.1, 3)),
        (5, number(random, pi2.0, 5)),
        (6, number(random, pi2.1, 3)),
        (7, key.2.map_or(Vec::new(), |apid| number(random, apid, 5))),
    ];
    rows[PIC].push(row(random, PIC, &columns));
}

fn pid(random: &mut Random, rows: &mut RowSet, numbers: [i64; 5], spid: i64) -> Packet {
    let or_default = |random: &mut Random, value: i64| match value {
        0 if random.chance(50) => Vec::new(),
        _ => number(random, value, 10),
    };
    let valid = random.chance(96);
    let letter = if !valid { b"N".to_vec() } else { optional(random, b"Y") };
    let columns = [
        (1, number(random, numbers[0], 3)),
        (2, number(random, numbers[1], 3)),
        (3, number(random, numbers[2], 5)),
        (4, or_default(random, numbers[3])),
        (5, or_default(random, numbers[4])),
        (6, number(random, spid, 10)),
        (13, letter),
    ];
    rows[PID].push(row(random, PID, &columns));
    Packet { spid, valid }
}

/// Where a parameter lies in the packets, mostly in all of them.
fn places(random: &mut Random, rows: &mut RowSet, parameter: &Parameter, packets: &[Packet]) {
    // a synthetic parameter is in no packet, and one constant in three is static
    let unlocated = match parameter.natur {
        b'R' => false,
        b'C' => random.chance(33),
        _ => true,
    };
    for packet in packets.iter().filter(|packet| packet.valid) {
        if unlocated || random.chance(if packets.len() > 3 { 99 } else { 7 }) {
            continue;
        }
        let string = parameter.ptc >= 7;
        let (nbocc, lgocc) = occurrences(random, parameter.width, string);
        let bit = if string && random.chance(85) { 0 } else { random.between(0, 7) };
        let byte = if random.chance(97) { random.between(9, 60) } else { random.between(0, 8_191) };
        let columns = [
            (1, parameter.name.clone()),
            (2, number(random, packet.spid, 10)),
            (3, number(random, byte, 5)),
            (4, bit.to_string().into_bytes()),
            (5, nbocc.map_or(Vec::new(), |nbocc| number(random, nbocc, 4))),
            (6, lgocc.map_or(Vec::new(), |lgocc| number(random, lgocc, 5))),
        ];
        rows[PLF].push(row(random, PLF, &columns));
    }
}

/// NBOCC and LGOCC, the latter now and then shorter than the field.
fn occurrences(random: &mut Random, width: i64, string: bool) -> (Option<i64>, Option<i64>) {
    if random.chance(60) {
        return (random.chance(50).then_some(1), random.chance(30).then_some(0));
    }
    let nbocc = if random.chance(97) { random.between(2, 6) } else { random.between(2, 9_999) };
    let gap = if string { 8 * random.between(0, 2) } else { random.between(0, 9) };
    let lgocc = if random.chance(80) { width + gap } else { random.between(1, 64) };
    (Some(nbocc), Some(lgocc))
}

/// The limits of a parameter that can have them: an ocf row and its checks.
fn limits(random: &mut Random, rows: &mut RowSet, parameter: &Parameter, all: &[Parameter]) {
    if !parameter.is_integer() || parameter.categ != b'N' || random.chance(15) {
        return;
    }
    let count = if random.chance(95) { random.between(1, 3) } else { random.between(4, 16) };
    let first = random.between(0, 99 - count);
    for pos in first..first + count {
        check(random, rows, parameter, pos, all);
    }
    // INTER C on a polynomial is a mistake.
    let often = if parameter.by_polynomial { 4 } else { 70 };
    let under_curve = !parameter.curtx.is_empty() && random.chance(often);
    let columns = [
        (1, parameter.name.clone()),
        (2, if random.chance(80) { random.between(1, 4) } else { random.between(1, 99) }.to_string().into()),
        (3, number(random, count, 2)),
        (4, if under_curve { b"C".to_vec() } else { b"U".to_vec() }),
        (5, b"I".to_vec()),
    ];
    rows[OCF].push(row(random, OCF, &columns));
}

fn check(random: &mut Random, rows: &mut RowSet, parameter: &Parameter, pos: i64, all: &[Parameter]) {
    let released: Vec<_> = all.iter().filter(|other| other.is_integer()).collect();
    let rlchk = if random.chance(40) { random.pick(&released).name.clone() } else { Vec::new() };
    let (low, high) = if random.chance(90) {
        let low = random.between(-40, 200);
        (low, low + random.between(0, 200))
    } else {
        let low = random.between(-2_147_483_648, 4_294_967_295);
        (low, random.between(low, 4_294_967_295))
    };
    let columns = [
        (1, parameter.name.clone()),
        (2, number(random, pos, 2)),
        (3, vec![*random.pick(b"SH")]),
        (4, number(random, low, 14)),
        (5, number(random, high, 14)),
        (6, rlchk),
        (7, valpar(random)),
    ];
    rows[OCP].push(row(random, OCP, &columns));
}
