//! Loaded tables and an archive: the programs `replay` and `survey` beside the reference, in time for each packet.
//!
//! Each program's time on an archive without packets is taken off; both read the archive from its file. What they
//! count is compared.

use std::path::{Path, PathBuf};
use std::process::{self, Command};
use std::time::Instant;
use std::{env, fs};

use harness::generate::full::{full_packet, full_set, last_by_polynomial, last_parameter, Shape};
use harness::generate::{borrowed, ByteSet};
use harness::reference::limits::{limit_step, State};
use harness::reference::packets::{extract, identify, Raw, Reading};
use harness::reference::values::{engineer, Value};
use harness::reference::{judged, Judged, Refusal};
use harness::tally::TABLE_NAMES;

const ROUNDS: usize = 5;

fn main() {
    println!("{:52} {:>10} {:>10} {:>7}", "ns for each packet, least of 5", "library", "reference", "ratio");
    measure("example mission", thermal(), thermal_packet(), ["T1PLATE", "T2RADTR"], 100_000);
    let typical = Shape { rows: 100, chain: 4 };
    measure_shape("typical, VALID chains of 4", typical, 100_000);
    measure_shape("full, VALID chains of 16", Shape { rows: 1_024, chain: 16 }, 20_000);
    measure_shape("full, one VALID chain of 1,024", Shape { rows: 1_024, chain: 1_024 }, 1_000);
}

fn measure_shape(title: &str, shape: Shape, packets: usize) {
    let names = [last_parameter(shape), last_by_polynomial(shape)];
    measure(title, full_set(shape), full_packet(shape), names.each_ref().map(String::as_str), packets);
}

fn example() -> PathBuf {
    Path::new(env!("CARGO_MANIFEST_DIR")).join("../examples/thermal")
}

fn thermal() -> ByteSet {
    TABLE_NAMES.map(|name| fs::read(example().join(format!("{name}.dat"))).expect("the example's table"))
}

fn thermal_packet() -> Vec<u8> {
    fs::read(example().join("packets.bin")).expect("the example's archive")[..44].to_vec()
}

/// Each question of a parameter with a curve, and the engineering value of one with a polynomial.
fn measure(title: &str, set: ByteSet, packet: Vec<u8>, [name, polynomial]: [&str; 2], packets: usize) {
    let folder = Folder::of(&set, &archive(&packet, packets));
    let tables = borrowed(&set);
    let judged = judged(&tables).expect("the tables are taken");
    let of_curve = ["step", "identify", "extract", "engineer"].map(|question| (question, name));
    for (question, name) in of_curve.into_iter().chain([("polynomial", polynomial)]) {
        let (program, option) = program(question);
        if !program.exists() {
            println!(
                "{title}: {question}: not measured, since `rt check replay survey` made no {}",
                program.display()
            );
            continue;
        }
        let by_reference =
            || told(&judged, &fs::read(folder.archive()).expect("the archive"), name.as_bytes(), question);
        let library = folder.run(&program, option, name, "packets.bin");
        assert_eq!(library, by_reference(), "{title}: {question}");
        let (mut ours, mut without, mut theirs) = (f64::MAX, f64::MAX, f64::MAX);
        for _ in 0..ROUNDS {
            ours = ours.min(timed(|| folder.run(&program, option, name, "packets.bin")));
            without = without.min(timed(|| folder.run(&program, option, name, "empty.bin")));
            theirs = theirs.min(timed(by_reference));
        }
        let each = |seconds: f64| seconds * 1e9 / packets as f64;
        let (library, reference) = (each(ours - without), each(theirs));
        let heading = format!("{title}, {packets}: {question}");
        println!("{heading:52} {library:10.0} {reference:10.0} {:7.2}", library / reference);
    }
}

fn timed<T>(mut question: impl FnMut() -> T) -> f64 {
    let start = Instant::now();
    std::hint::black_box(question());
    start.elapsed().as_secs_f64()
}

/// The program that asks the question, and its option.
fn program(question: &str) -> (PathBuf, &str) {
    let (name, option) = match question {
        "step" => ("replay", "last"),
        "polynomial" => ("survey", "engineer"),
        question => ("survey", question),
    };
    (Path::new(env!("CARGO_MANIFEST_DIR")).join("../target/bin").join(name), option)
}

/// The packet again and again, each with the next sequence count.
fn archive(packet: &[u8], packets: usize) -> Vec<u8> {
    let mut all = packet.repeat(packets);
    for (at, packet) in all.chunks_mut(packet.len()).enumerate() {
        packet[2..4].copy_from_slice(&(0xC000 | (at % 16_384) as u16).to_be_bytes());
    }
    all
}

/// A folder with tables and archives, removed at the end.
struct Folder(PathBuf);

impl Folder {
    fn of(set: &ByteSet, archive: &[u8]) -> Self {
        let folder = env::temp_dir().join(format!("petrolyaz-archive-{}", process::id()));
        fs::create_dir_all(&folder).expect("a folder for the tables");
        for (name, table) in TABLE_NAMES.iter().zip(set) {
            fs::write(folder.join(format!("{name}.dat")), table).expect("the table is written");
        }
        fs::write(folder.join("packets.bin"), archive).expect("the archive is written");
        fs::write(folder.join("empty.bin"), b"").expect("the archive is written");
        Folder(folder)
    }

    fn archive(&self) -> PathBuf {
        self.0.join("packets.bin")
    }

    /// What the program says at the end: the state, or how many are answered and what they weigh.
    fn run(&self, program: &Path, option: &str, name: &str, file: &str) -> String {
        let mut command = Command::new(program);
        let output = command.arg(&self.0).arg(name).arg(self.0.join(file)).arg(option).output();
        String::from_utf8_lossy(&output.expect("the program runs").stdout).into_owned()
    }
}

impl Drop for Folder {
    fn drop(&mut self) {
        fs::remove_dir_all(&self.0).expect("the folder is removed");
    }
}

/// The packets that stand end to end in the bytes, each as long as its length field says.
fn packets(mut bytes: &[u8]) -> impl Iterator<Item = &[u8]> {
    std::iter::from_fn(move || {
        let length = 7 + usize::from(*bytes.get(4)?) * 256 + usize::from(*bytes.get(5)?);
        let (packet, rest) = bytes.split_at_checked(length)?;
        bytes = rest;
        Some(packet)
    })
}

/// What the reference says, in the words of the programs.
fn told(judged: &Judged, bytes: &[u8], name: &[u8], question: &str) -> String {
    let weigh = |packet: &[u8]| match question {
        "identify" => identify(judged, packet).map(|identity| identity.spid as u64),
        "extract" => extract(judged, packet, name, 0).map(|reading| weight_of_reading(&reading)),
        _ => engineer(judged, packet, name, 0).map(|value| weight_of_value(&value)),
    };
    match question {
        "step" => stepped(judged, bytes, name),
        _ => surveyed(packets(bytes).map(weigh)),
    }
}

fn weight_of_reading(reading: &Reading) -> u64 {
    match (reading.valid, reading.raw) {
        (false, _) => 0,
        (true, Raw::Integer(value)) => value.unsigned_abs(),
        (true, Raw::Text { start, .. }) => start as u64,
        (true, Raw::Real { bits, .. }) => bits,
    }
}

/// A double weighs its bits, and so does a real.
fn weight_of_value(value: &Value) -> u64 {
    match *value {
        Value::Integer(value) => value.unsigned_abs(),
        Value::Double(value) => value.to_bits(),
        Value::String { start, .. } => start as u64,
        Value::Real { bits, .. } => bits,
        Value::Text { start, .. } => start as u64,
    }
}

fn surveyed(answers: impl Iterator<Item = Result<u64, Refusal>>) -> String {
    let (mut answered, mut weights) = (0, 0u64);
    for weight in answers.flatten() {
        answered += 1;
        weights = weights.wrapping_add(weight);
    }
    format!("{answered} answered, which weigh {weights}\n")
}

fn stepped(judged: &Judged, bytes: &[u8], name: &[u8]) -> String {
    let mut state = State { fresh: true, ..State::default() };
    let mut offered = 0;
    for packet in packets(bytes) {
        state = limit_step(judged, packet, name, state).unwrap_or(state);
        offered += 1;
    }
    let State { apid, count, run, announced, .. } = state;
    let announced = ["within", "soft", "hard"][usize::from(announced)];
    format!("after {offered} packets: APID {apid}, count {count}, run {run}, announced {announced}\n")
}
