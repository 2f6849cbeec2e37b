//! Lists of pid rows to search: the index, and lists that aren't it.

use crate::random::Random;
use crate::reference::index::index;
use crate::reference::Judged;

/// Makes one thing wrong in the index, if it can be.
type Mistake = fn(&mut Random, &Judged, &mut Vec<u16>);

const MISTAKES: [(&str, Mistake); 10] = [
    ("a row missing", |random, _, list| {
        let at = random.below(list.len());
        list.drain(at..list.len().min(at + 1));
    }),
    ("an N row too many", |random, judged, list| {
        let rows = judged.pid.good_rows().filter(|(_, row)| !row.valid);
        let rows: Vec<usize> = rows.map(|(at, _)| at).collect();
        put_in(random, judged, list, &rows);
    }),
    ("a bad row too many", |random, judged, list| {
        let good: Vec<usize> = judged.pid.good_rows().map(|(at, _)| at).collect();
        let rows: Vec<usize> = (0..judged.pid.rows.len()).filter(|at| !good.contains(at)).collect();
        put_in(random, judged, list, &rows);
    }),
    ("a row twice, beside itself", |random, _, list| {
        let at = random.below(list.len());
        list.get(at).copied().into_iter().for_each(|row| list.insert(at, row));
    }),
    ("a row twice", |random, _, list| {
        let at = random.below(list.len());
        list.extend_from_within(at..list.len().min(at + 1));
    }),
    ("two rows exchanged", |random, _, list| {
        let pair = [random.below(list.len()), random.below(list.len())];
        list.get(pair[0]).is_some().then(|| list.swap(pair[0], pair[1]));
    }),
    ("row 0 too many", |random, _, list| list.insert(random.below(list.len() + 1), 0)),
    ("a row beyond the table too many", |random, judged, list| {
        let next = judged.pid.rows.len() + 1;
        let further = next + random.below(100);
        list.push(*random.pick(&[next, further, 1_025, 65_535]) as u16);
    }),
    ("rows by their numbers", |_, _, list| list.sort_unstable()),
    ("no rows", |_, _, list| list.clear()),
];

/// The kinds of lists that aren't the index.
pub const WRONG: [&str; MISTAKES.len()] = {
    let mut kinds = [""; MISTAKES.len()];
    let mut at = 0;
    while at < MISTAKES.len() {
        kinds[at] = MISTAKES[at].0;
        at += 1;
    }
    kinds
};

/// The index, or a list that is mostly not it, and then its kind.
pub fn list(random: &mut Random, judged: &Judged) -> (Vec<u16>, Option<&'static str>) {
    let mut list = index(judged);
    if !random.chance(30) {
        return (list, None);
    }
    let (kind, mistake) = random.pick(&MISTAKES);
    mistake(random, judged, &mut list);
    (list, Some(kind))
}

/// Puts one of the rows, by their places from 0, where its numbers belong, or anywhere.
fn put_in(random: &mut Random, judged: &Judged, list: &mut Vec<u16>, rows: &[usize]) {
    if rows.is_empty() {
        return;
    }
    let place = *random.pick(rows);
    let numbers = |place: usize| judged.pid.rows[place].fields.as_ref().map(|row| row.numbers);
    let at = match numbers(place) {
        Some(own) if random.chance(70) => {
            list.partition_point(|&row| numbers(usize::from(row) - 1) < Some(own))
        }
        _ => random.below(list.len() + 1),
    };
    list.insert(at, place as u16 + 1);
}
