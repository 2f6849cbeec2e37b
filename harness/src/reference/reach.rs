//! Which rows lean on a line, for demand 3.

use std::collections::HashMap;

use super::judging::{Judged, Row};
use super::rows::{Caf, Cap, Mcf, Ocf, Ocp, Pcf, Pic, Pid, Plf, Txf, Txp};

/// What a row can be found by: a key that it holds, or the name by which it is counted.
#[derive(Clone, Copy, PartialEq, Eq, Hash)]
enum Mark<'a> {
    Numbers([i64; 5]),
    Spid(i64),
    Pic((i64, i64, Option<i64>)),
    Plf(&'a [u8], i64),
    Pcf(&'a [u8]),
    /// NUMBR of caf and IDENT of mcf, which are one key space.
    Curve(&'a [u8]),
    Cap(&'a [u8], i64),
    Txf(&'a [u8]),
    Txp(&'a [u8], i64),
    Ocf(&'a [u8]),
    Ocp(&'a [u8], i64),
    PointOf(&'a [u8]),
    TextOf(&'a [u8]),
    CheckOf(&'a [u8]),
}

/// The marks of a well-formed row.
#[derive(Default)]
struct Marks<'a> {
    /// The keys that it holds.
    keys: Vec<Mark<'a>>,
    /// The name by which caf, txf or ocf counts it.
    counted: Option<Mark<'a>>,
    /// The keys that it names, and for caf, txf and ocf the name that they count.
    leads: Vec<Mark<'a>>,
}

/// 01: "from a row to every other row that holds one of its keys, to every row holding a key it names, met
/// conditions or not, and from caf, txf and ocf to every row of their name in cap, txp and ocp".
trait Leaning<'a> {
    fn marks(&self) -> Marks<'a>;
}

impl<'a> Leaning<'a> for Pid {
    fn marks(&self) -> Marks<'a> {
        if !self.valid {
            return Marks::default();
        }
        Marks { keys: vec![Mark::Numbers(self.numbers), Mark::Spid(self.spid)], ..Marks::default() }
    }
}

impl<'a> Leaning<'a> for Pic {
    fn marks(&self) -> Marks<'a> {
        let key = Mark::Pic((self.service, self.subservice, self.apid));
        Marks { keys: vec![key], ..Marks::default() }
    }
}

impl<'a> Leaning<'a> for Plf<'a> {
    fn marks(&self) -> Marks<'a> {
        let leads = vec![Mark::Pcf(self.name), Mark::Spid(self.spid)];
        Marks { keys: vec![Mark::Plf(self.name, self.spid)], leads, counted: None }
    }
}

impl<'a> Leaning<'a> for Pcf<'a> {
    fn marks(&self) -> Marks<'a> {
        let curve = if self.categ == b'S' { Mark::Txf } else { Mark::Curve };
        let leads = self.valid.map(Mark::Pcf).into_iter().chain(self.curtx.map(curve)).collect();
        Marks { keys: vec![Mark::Pcf(self.name)], leads, counted: None }
    }
}

impl<'a> Leaning<'a> for Caf<'a> {
    fn marks(&self) -> Marks<'a> {
        Marks { keys: vec![Mark::Curve(self.numbr)], leads: vec![Mark::PointOf(self.numbr)], counted: None }
    }
}

impl<'a> Leaning<'a> for Cap<'a> {
    fn marks(&self) -> Marks<'a> {
        Marks {
            keys: vec![Mark::Cap(self.numbr, self.x)],
            leads: vec![Mark::Curve(self.numbr)],
            counted: Some(Mark::PointOf(self.numbr)),
        }
    }
}

impl<'a> Leaning<'a> for Txf<'a> {
    fn marks(&self) -> Marks<'a> {
        Marks { keys: vec![Mark::Txf(self.numbr)], leads: vec![Mark::TextOf(self.numbr)], counted: None }
    }
}

impl<'a> Leaning<'a> for Txp<'a> {
    fn marks(&self) -> Marks<'a> {
        Marks {
            keys: vec![Mark::Txp(self.numbr, self.from)],
            leads: vec![Mark::Txf(self.numbr)],
            counted: Some(Mark::TextOf(self.numbr)),
        }
    }
}

impl<'a> Leaning<'a> for Ocf<'a> {
    fn marks(&self) -> Marks<'a> {
        let leads = vec![Mark::Pcf(self.name), Mark::CheckOf(self.name)];
        Marks { keys: vec![Mark::Ocf(self.name)], leads, counted: None }
    }
}

impl<'a> Leaning<'a> for Ocp<'a> {
    fn marks(&self) -> Marks<'a> {
        let released = self.rlchk.map(Mark::Pcf);
        Marks {
            keys: vec![Mark::Ocp(self.name, self.pos)],
            leads: [Mark::Ocf(self.name)].into_iter().chain(released).collect(),
            counted: Some(Mark::CheckOf(self.name)),
        }
    }
}

impl<'a> Leaning<'a> for Mcf<'a> {
    /// It counts nothing, so that it leads to no cap row; a cap row of its IDENT leads to it.
    fn marks(&self) -> Marks<'a> {
        Marks { keys: vec![Mark::Curve(self.ident)], ..Marks::default() }
    }
}

/// The marks of every row, in the order of the cells; those of a row with reasons 1 to 8 are none.
fn all_marks<'a>(judged: &Judged<'a>) -> Vec<Marks<'a>> {
    fn add<'a, T: Leaning<'a>>(all: &mut Vec<Marks<'a>>, rows: &[Row<T>]) {
        all.extend(rows.iter().map(|row| row.fields.as_ref().map(T::marks).unwrap_or_default()));
    }
    let mut all = Vec::new();
    add(&mut all, &judged.pid.rows);
    add(&mut all, &judged.pic.rows);
    add(&mut all, &judged.plf.rows);
    add(&mut all, &judged.pcf.rows);
    add(&mut all, &judged.caf.rows);
    add(&mut all, &judged.cap.rows);
    add(&mut all, &judged.txf.rows);
    add(&mut all, &judged.txp.rows);
    add(&mut all, &judged.ocf.rows);
    add(&mut all, &judged.ocp.rows);
    add(&mut all, &judged.mcf.rows);
    all
}

/// For each row, in the order of the cells, whether it reaches the row `line` by one or more steps.
/// (A row counts as reaching itself by a key of its own, which demand 3 never asks.)
pub fn reaching(judged: &Judged, line: usize) -> Vec<bool> {
    let all = all_marks(judged);
    let mut leading: HashMap<Mark, Vec<usize>> = HashMap::new();
    for (at, marks) in all.iter().enumerate() {
        for &mark in marks.keys.iter().chain(&marks.leads) {
            leading.entry(mark).or_default().push(at);
        }
    }
    let mut reaches = vec![false; all.len()];
    let mut waiting = vec![line];
    while let Some(row) = waiting.pop() {
        for mark in all[row].keys.iter().chain(&all[row].counted) {
            for &from in leading.get(mark).into_iter().flatten() {
                if !std::mem::replace(&mut reaches[from], true) {
                    waiting.push(from);
                }
            }
        }
    }
    reaches
}
