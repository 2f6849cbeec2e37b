//! Which tables are asked about, and how often each kind.

use super::consistent::{consistent, Size};
use super::mutations::{mutate_bytes, mutate_rows, noise};
use super::{rendered, ByteSet};
use crate::random::Random;
use crate::reference::judging::{MOST_BYTES, MOST_ROWS, TABLES};
use crate::reference::lines::count_lines;

/// Small tables: consistent, with few or many mistakes, noise, or at the bounds of refusals 1 and 2.
pub fn small_set(random: &mut Random) -> ByteSet {
    match random.below(100) {
        0..=44 => mutated(random, 0),
        45..=84 => {
            let mistakes = 1 + random.below(4);
            mutated(random, mistakes)
        }
        85..=91 => {
            let mistakes = 5 + random.below(16);
            mutated(random, mistakes)
        }
        92..=95 => noise(random),
        _ => at_the_bounds(random),
    }
}

/// Tables of some hundred rows each.
pub fn large_set(random: &mut Random) -> ByteSet {
    let size = Size::large(random);
    let mut rows = consistent(random, size);
    for _ in 0..random.below(20) {
        mutate_rows(random, &mut rows);
    }
    rendered(&rows)
}

fn mutated(random: &mut Random, mistakes: usize) -> ByteSet {
    let size = Size::small(random);
    let mut rows = consistent(random, size);
    let in_bytes = if random.chance(20) { mistakes / 2 + mistakes % 2 } else { 0 };
    for _ in in_bytes..mistakes {
        mutate_rows(random, &mut rows);
    }
    let mut set = rendered(&rows);
    for _ in 0..in_bytes {
        mutate_bytes(random, &mut set);
    }
    set
}

/// One or two tables with the most bytes or rows that are taken, or a little more.
fn at_the_bounds(random: &mut Random) -> ByteSet {
    let mut set = mutated(random, 0);
    for _ in 0..1 + random.below(2) {
        let table = &mut set[random.below(TABLES)];
        let over = random.below(3);
        if random.chance(50) {
            table.resize((MOST_BYTES + over).saturating_sub(1), b'x');
        } else {
            let missing = (MOST_ROWS + over).saturating_sub(1 + count_lines(table));
            table.extend(vec![b'\n'; missing]);
            table.extend(vec![b'x'; random.below(2)]);
        }
    }
    set
}
