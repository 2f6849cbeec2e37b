//! Limit states.

use crate::random::Random;
use crate::reference::limits::State;

/// A state to step with the packet: fresh, before it, not before it, or any numbers.
pub fn state(random: &mut Random, packet: &[u8]) -> State {
    match random.below(20) {
        0..=3 => State { fresh: true, ..State::default() },
        4 => any(random),
        5 => near(random),
        _ => before(random, packet),
    }
}

/// A state as five numbers, of which one may be none of its field.
pub fn numbers(random: &mut Random, packet: &[u8]) -> [i64; 5] {
    let mut numbers = state(random, packet).numbers();
    if random.chance(5) {
        let k = random.below(5);
        let field = [2, 65_536, 65_536, 256, 256][k];
        numbers[k] = *random.pick(&[field, field + numbers[k], -1, numbers[k] - field, i64::MAX, i64::MIN]);
    }
    numbers
}

fn any(random: &mut Random) -> State {
    let word = random.word();
    State {
        fresh: random.chance(50),
        apid: word as u16,
        count: (word >> 16) as u16,
        run: (word >> 32) as u8,
        announced: (word >> 40) as u8,
    }
}

/// One number, or two, at or just past its bound.
fn near(random: &mut Random) -> State {
    let mut state = State { fresh: random.chance(30), ..State::default() };
    for _ in 0..1 + random.below(2) {
        match random.below(4) {
            0 => state.apid = *random.pick(&[1, 2_047, 2_048, 65_535]),
            1 => state.count = *random.pick(&[1, 16_383, 16_384, 65_535]),
            2 => state.run = *random.pick(&[1, 99, 100, 255]),
            _ => state.announced = *random.pick(&[1, 2, 3, 255]),
        }
    }
    state
}

/// A state that the packet may follow.
fn before(random: &mut Random, packet: &[u8]) -> State {
    let word =
        |at: usize| packet.get(at..at + 2).map_or(0, |pair| i64::from(pair[0]) * 256 + i64::from(pair[1]));
    let ahead = match random.below(10) {
        0 => *random.pick(&[0, 1, 8_191, 8_192, 16_383]),
        1 => random.between(0, 16_383),
        2..=4 => random.between(1, 8_191),
        _ => 1,
    };
    let other = i64::from(random.chance(4));
    State {
        fresh: false,
        apid: ((word(0) + other) % 2_048) as u16,
        count: (word(2) % 16_384 - ahead).rem_euclid(16_384) as u16,
        run: if random.chance(80) { random.below(5) } else { random.below(100) } as u8,
        announced: random.below(3) as u8,
    }
}
