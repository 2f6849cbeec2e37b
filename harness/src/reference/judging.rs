//! The tables judged together: reasons 9 to 12.

use std::collections::HashMap;
use std::hash::Hash;

use super::faults::{Position, Unformed};
use super::lines::{count_lines, lines};
use super::refusals::{refuse_at, Refusal};
use super::rows::{read_row, Caf, Cap, Mcf, Ocf, Ocp, Pcf, Pic, Pid, Plf, Record, Txf, Txp};
use super::schemas::{verdict, Columns, Verdict, GOOD};

pub const TABLES: usize = 11;
pub const MOST_BYTES: usize = 65_536;
pub const MOST_ROWS: usize = 1_024;

/// So many cells are enough for any tables that are taken.
pub const MOST_CELLS: usize = TABLES * MOST_ROWS;

/// pid, pic, plf, pcf, caf, cap, txf, txp, ocf, ocp, mcf.
pub type Tables<'a> = [&'a [u8]; TABLES];

/// A row's verdict and position, and its fields where it is well-formed: without reasons 1 to 8, 13 and 14.
pub struct Row<T> {
    pub cell: Verdict,
    pub position: Position,
    pub fields: Option<T>,
}

impl<T> Row<T> {
    /// The fields of a row whose verdict is good so far.
    fn standing(&self) -> Option<&T> {
        self.fields.as_ref().filter(|_| self.cell == GOOD)
    }
}

/// The well-formed rows that hold a key.
#[derive(Clone, Copy, PartialEq)]
enum Holders {
    One(usize),
    Several,
}

type Index<K> = HashMap<K, Holders>;

/// Rows of one name, by their places in the table.
pub type Groups<'a> = HashMap<&'a [u8], Vec<usize>>;

/// A table's rows, and who holds which key.
pub struct Table<T, K> {
    pub rows: Vec<Row<T>>,
    index: Index<K>,
}

impl<'a, T: Record<'a>> Table<T, T::Key> {
    /// Reasons 1 to 8, 13 and 14.
    fn read(bytes: &'a [u8]) -> Self {
        let mut columns = Columns::default();
        let rows: Vec<Row<T>> = lines(bytes)
            .map(|line| match read_row(line, &mut columns) {
                Ok(fields) => Row { cell: GOOD, position: 0, fields: Some(fields) },
                Err(Unformed { cell, position }) => Row { cell, position, fields: None },
            })
            .collect();
        let index = index_by(&rows, T::key);
        Table { rows, index }
    }

    /// 01: "9 key held by another row too, all holders alike (column 0)".
    fn judge_shared(&mut self) {
        let index = &self.index;
        judge_rows(&mut self.rows, |fields| shared_verdict(is_shared(index, fields.key())));
    }
}

impl<T, K: Eq + Hash> Table<T, K> {
    /// The good row that holds the key, with its place, from 0.
    pub fn good(&self, key: &K) -> Option<(usize, &T)> {
        self.good_at(sole_holder(&self.index, key)?)
    }

    fn good_at(&self, at: usize) -> Option<(usize, &T)> {
        self.rows[at].standing().map(|fields| (at, fields))
    }

    /// The good rows of a name, with their places, from 0.
    pub fn good_of<'s>(&'s self, groups: &'s Groups, name: &[u8]) -> impl Iterator<Item = (usize, &'s T)> {
        groups.get(name).into_iter().flatten().filter_map(|&at| self.good_at(at))
    }

    pub fn well_formed(&self) -> impl Iterator<Item = &T> {
        self.rows.iter().filter_map(|row| row.fields.as_ref())
    }

    /// The good rows, with their places, from 0.
    pub fn good_rows(&self) -> impl Iterator<Item = (usize, &T)> {
        self.rows.iter().enumerate().filter_map(|(at, row)| Some((at, row.standing()?)))
    }

    fn judge(&mut self, reason: impl Fn(&T) -> Verdict) {
        judge_rows(&mut self.rows, reason);
    }

    fn groups<'a>(&self, name: impl Fn(&T) -> &'a [u8]) -> Groups<'a> {
        let mut groups = Groups::new();
        for (at, row) in self.rows.iter().enumerate() {
            if let Some(fields) = row.standing() {
                groups.entry(name(fields)).or_default().push(at);
            }
        }
        groups
    }
}

/// Gives each row that still stands the verdict that `reason` finds.
fn judge_rows<T>(rows: &mut [Row<T>], reason: impl Fn(&T) -> Verdict) {
    for row in rows {
        if let Some(fields) = row.standing() {
            row.cell = reason(fields);
        }
    }
}

fn index_by<T, K: Eq + Hash>(rows: &[Row<T>], key: impl Fn(&T) -> Option<K>) -> Index<K> {
    let held =
        rows.iter().enumerate().filter_map(|(at, row)| Some((at, row.fields.as_ref().and_then(&key)?)));
    index_of(held)
}

/// Who holds which key, of rows by their places.
fn index_of<K: Eq + Hash>(held: impl Iterator<Item = (usize, K)>) -> Index<K> {
    let mut index = Index::with_capacity(held.size_hint().1.unwrap_or(0));
    for (at, key) in held {
        index.entry(key).and_modify(|holders| *holders = Holders::Several).or_insert(Holders::One(at));
    }
    index
}

fn sole_holder<K: Eq + Hash>(index: &Index<K>, key: &K) -> Option<usize> {
    match index.get(key) {
        Some(Holders::One(at)) => Some(*at),
        _ => None,
    }
}

fn is_shared<K: Eq + Hash>(index: &Index<K>, key: Option<K>) -> bool {
    key.is_some_and(|key| index.get(&key) == Some(&Holders::Several))
}

fn shared_verdict(shared: bool) -> Verdict {
    if shared {
        verdict(9, 0)
    } else {
        GOOD
    }
}

/// The verdict of the first name of the list that isn't met.
fn first_unmet(names: &[(bool, u16)]) -> Verdict {
    match names.iter().find(|(met, _)| !met) {
        Some((_, column)) => verdict(11, *column),
        None => GOOD,
    }
}

/// Eleven tables, every row judged.
pub struct Judged<'a> {
    pub pid: Table<Pid, [i64; 5]>,
    pub pic: Table<Pic, (i64, i64, Option<i64>)>,
    pub plf: Table<Plf<'a>, (&'a [u8], i64)>,
    pub pcf: Table<Pcf<'a>, &'a [u8]>,
    pub caf: Table<Caf<'a>, &'a [u8]>,
    pub cap: Table<Cap<'a>, (&'a [u8], i64)>,
    pub txf: Table<Txf<'a>, &'a [u8]>,
    pub txp: Table<Txp<'a>, (&'a [u8], i64)>,
    pub ocf: Table<Ocf<'a>, &'a [u8]>,
    pub ocp: Table<Ocp<'a>, (&'a [u8], i64)>,
    pub mcf: Table<Mcf<'a>, &'a [u8]>,
    spids: Index<i64>,
    /// The cap, txp and ocp rows of each name that hold keys for counting.
    pub points: Groups<'a>,
    pub texts: Groups<'a>,
    pub checks: Groups<'a>,
}

/// Refusals 1 and 2, each at its first table, 1 to 11; else the count of all rows.
pub fn count_rows(tables: &Tables) -> Result<usize, Refusal> {
    if let Some(at) = tables.iter().position(|table| table.len() > MOST_BYTES) {
        return refuse_at(1, at as u64 + 1);
    }
    let counts = tables.map(count_lines);
    match counts.iter().position(|&count| count > MOST_ROWS) {
        Some(at) => refuse_at(2, at as u64 + 1),
        None => Ok(counts.iter().sum()),
    }
}

/// Judges tables that refusals 1 and 2 don't meet.
pub fn judge<'a>(tables: &Tables<'a>) -> Judged<'a> {
    let mut judged = read(tables);
    judged.judge_keys();
    judged.judge_counts();
    judged.judge_chains();
    judged.judge_names();
    judged
}

fn read<'a>(tables: &Tables<'a>) -> Judged<'a> {
    let [pid, pic, plf, pcf, caf, cap, txf, txp, ocf, ocp, mcf] = *tables;
    let pid = Table::<Pid, _>::read(pid);
    let spids = index_by(&pid.rows, Pid::spid_key);
    Judged {
        pid,
        pic: Table::read(pic),
        plf: Table::read(plf),
        pcf: Table::read(pcf),
        caf: Table::read(caf),
        cap: Table::read(cap),
        txf: Table::read(txf),
        txp: Table::read(txp),
        ocf: Table::read(ocf),
        ocp: Table::read(ocp),
        mcf: Table::read(mcf),
        spids,
        points: Groups::new(),
        texts: Groups::new(),
        checks: Groups::new(),
    }
}

impl<'a> Judged<'a> {
    /// Every cell with its position, in table order.
    pub fn cells(&self) -> Vec<(Verdict, Position)> {
        fn of<T>(rows: &[Row<T>]) -> impl Iterator<Item = (Verdict, Position)> + '_ {
            rows.iter().map(|row| (row.cell, row.position))
        }
        let packets = of(&self.pid.rows).chain(of(&self.pic.rows)).chain(of(&self.plf.rows));
        let curves = of(&self.caf.rows).chain(of(&self.cap.rows));
        let texts = of(&self.txf.rows).chain(of(&self.txp.rows));
        let limits = of(&self.ocf.rows).chain(of(&self.ocp.rows));
        let ten = packets.chain(of(&self.pcf.rows)).chain(curves).chain(texts).chain(limits);
        ten.chain(of(&self.mcf.rows)).collect()
    }

    fn judge_keys(&mut self) {
        let spids = &self.spids;
        self.pid.judge(|row| shared_verdict(is_shared(spids, row.spid_key())));
        self.pid.judge_shared();
        self.pic.judge_shared();
        self.plf.judge_shared();
        self.pcf.judge_shared();
        self.judge_curve_keys();
        self.cap.judge_shared();
        self.txf.judge_shared();
        self.txp.judge_shared();
        self.ocf.judge_shared();
        self.ocp.judge_shared();
    }

    /// 02, P1: "IDENT shares its keys with caf NUMBR, so a clash is reason 9 for both".
    fn judge_curve_keys(&mut self) {
        let (caf, mcf) =
            (self.caf.well_formed().map(|row| row.numbr), self.mcf.well_formed().map(|row| row.ident));
        let curves = index_of(caf.chain(mcf).enumerate());
        self.caf.judge(|row| shared_verdict(is_shared(&curves, row.key())));
        self.mcf.judge(|row| shared_verdict(is_shared(&curves, row.key())));
    }

    /// 01: "10 count differs (count column)", over the rows without reasons 1 to 9.
    fn judge_counts(&mut self) {
        self.points = self.cap.groups(|row| row.numbr);
        self.texts = self.txp.groups(|row| row.numbr);
        self.checks = self.ocp.groups(|row| row.name);
        let counted = |groups: &Groups, name: &[u8], count: i64, column: u16| {
            let held = groups.get(name).map_or(0, Vec::len);
            if held as i64 == count {
                GOOD
            } else {
                verdict(10, column)
            }
        };
        let (points, texts, checks) = (&self.points, &self.texts, &self.checks);
        self.caf.judge(|row| counted(points, row.numbr, row.ncurve, 7));
        self.txf.judge(|row| counted(texts, row.numbr, row.nalias, 4));
        self.ocf.judge(|row| counted(checks, row.name, row.nbool, 3));
    }

    /// pcf along its VALID chains: reasons 12 and 11, the row that is named before the row that names it.
    fn judge_chains(&mut self) {
        let next = self.next_on_chain();
        let mut seen = vec![Seen::Not; next.len()];
        for first in 0..next.len() {
            let mut path = Vec::new();
            let mut at = Some(first);
            while let Some(row) = at.filter(|&row| seen[row] == Seen::Not) {
                seen[row] = Seen::OnPath;
                path.push(row);
                at = next[row];
            }
            if let Some(entry) = at.filter(|&row| seen[row] == Seen::OnPath) {
                let from = path.iter().position(|&row| row == entry).unwrap_or(0);
                path[from..].iter().for_each(|&row| self.pcf.rows[row].cell = verdict(12, 8));
            }
            for &row in path.iter().rev() {
                seen[row] = Seen::Judged;
                self.judge_pcf_names(row, next[row]);
            }
        }
    }

    /// For each pcf row without reasons 1 to 9, the one among these that its VALID names.
    fn next_on_chain(&self) -> Vec<Option<usize>> {
        let next = |row: &Pcf| row.valid.and_then(|name| sole_holder(&self.pcf.index, &name));
        self.pcf.rows.iter().map(|row| row.standing().and_then(next)).collect()
    }

    fn judge_pcf_names(&mut self, at: usize, next: Option<usize>) {
        let Some(row) = self.pcf.rows[at].standing() else { return };
        let next_row = next.and_then(|next| self.pcf.rows[next].standing());
        let valid_met = row.valid.is_none() || next_row.is_some_and(Pcf::is_integer);
        let curve_met = row.curtx.is_none_or(|name| match row.categ {
            b'S' => self.txf.good(&name).is_some(),
            // 02, P1: "N parameters may name either".
            _ => self.caf.good(&name).is_some() || self.mcf.good(&name).is_some(),
        });
        self.pcf.rows[at].cell = first_unmet(&[(valid_met, 8), (curve_met, 12)]);
    }

    /// 01: "11 a named row isn't there, good and of the kind asked, lowest column", of the other tables.
    fn judge_names(&mut self) {
        let (pid, spids, pcf) = (&self.pid, &self.spids, &self.pcf);
        let (caf, txf) = (&self.caf, &self.txf);
        let named = |name, asked: fn(&Pcf) -> bool| pcf.good(&name).is_some_and(|(_, row)| asked(row));
        self.cap.judge(|row| first_unmet(&[(caf.good(&row.numbr).is_some(), 1)]));
        self.txp.judge(|row| first_unmet(&[(txf.good(&row.numbr).is_some(), 1)]));
        self.plf.judge(|row| {
            let packet = sole_holder(spids, &row.spid).and_then(|at| pid.good_at(at));
            first_unmet(&[(named(row.name, |pcf| pcf.is_locatable()), 1), (packet.is_some(), 2)])
        });
        self.ocf.judge(|row| {
            let checkable = named(row.name, |pcf| pcf.is_integer() && pcf.categ == b'N');
            // 02, P1: "a limit with INTER C on a polynomial is reason 11 at column 4".
            let curve = pcf.good(&row.name).and_then(|(_, pcf)| pcf.curtx);
            let curved = row.inter == b'U' || curve.is_some_and(|name| caf.good(&name).is_some());
            first_unmet(&[(checkable, 1), (curved, 4)])
        });
        let ocf = &self.ocf;
        self.ocp.judge(|row| {
            let released = row.rlchk.is_none_or(|name| named(name, |pcf| pcf.is_integer()));
            first_unmet(&[(ocf.good(&row.name).is_some(), 1), (released, 6)])
        });
    }
}

/// How far a walk along the chains has come with a row.
#[derive(Clone, Copy, PartialEq)]
enum Seen {
    Not,
    OnPath,
    Judged,
}
