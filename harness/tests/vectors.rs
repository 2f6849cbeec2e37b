//! The vector files, asked of the proved library and of the reference.

use std::collections::BTreeMap;
use std::thread::Builder;

use harness::answers::Answer;
use harness::reference::limits::State;
use harness::reference::Tables;
use harness::vectors::asked::{Asked, Library, Reference};
use harness::vectors::run::run;
use harness::vectors::script::Inner;
use harness::vectors::{scripts, Script};

/// 2 MiB that the library asks for, and room for the rest.
const STACK: usize = 4 << 20;

#[test]
fn the_library_answers_as_the_vectors_say() {
    let all = || ask_all("library", &Library);
    let thread = Builder::new().stack_size(STACK).spawn(all).expect("a thread starts");
    thread.join().expect("no answer differs");
}

#[test]
fn the_reference_answers_as_the_vectors_say() {
    ask_all("reference", &Reference);
}

fn ask_all(who: &str, asked: &impl Asked) {
    let scripts = scripts();
    assert!(!scripts.is_empty(), "no vector files");
    let mut questions = BTreeMap::new();
    let mut differences = Vec::new();
    for (name, text) in &scripts {
        let run = run(text, asked);
        run.asked.iter().for_each(|(kind, count)| *questions.entry(*kind).or_insert(0) += count);
        differences.extend(run.differences.iter().map(|(line, what)| format!("{name}:{line}: {what}")));
    }
    println!("{}", account(who, &scripts, &questions));
    assert!(differences.is_empty(), "{who}:\n{}", differences.join("\n"));
}

fn account(who: &str, scripts: &[Script], questions: &BTreeMap<&str, usize>) -> String {
    let kinds: Vec<String> = questions.iter().map(|(kind, count)| format!("{count} {kind}")).collect();
    let total: usize = questions.values().sum();
    format!("{} vector files, {total} questions to the {who}: {}", scripts.len(), kinds.join(", "))
}

/// Without it a question could be passed over.
#[test]
fn every_answer_is_compared() {
    for (name, text) in scripts() {
        let text = String::from_utf8(text).expect("vector files are text");
        let answers = text.lines().filter(|line| line.starts_with("= ")).count();
        let other = text.replace("\n= ", "\n= not ");
        assert_eq!(different_lines(&other).len(), answers, "{name}");
    }
}

/// What a script has that isn't as it should be, asked of the reference.
fn differences(script: &str) -> Vec<(usize, String)> {
    run(script.as_bytes(), &Reference).differences
}

fn different_lines(script: &str) -> Vec<usize> {
    differences(script).into_iter().map(|(line, _)| line).collect()
}

#[test]
fn an_answer_that_differs_is_told() {
    assert_eq!(different_lines("number 0767\n= 503\nnumber 0767\n= 767\n"), [4]);
    assert_eq!(different_lines("identify\n= refused 20 at 0\nidentify\n= refused 20 at 0 \n"), [4]);
}

#[test]
fn questions_and_answers_go_together() {
    assert_eq!(different_lines("= 503\n"), [1]);
    assert_eq!(different_lines("number 0767\n"), [1]);
    assert_eq!(different_lines("number 0767\nnumber 0767\n= 503\n"), [1]);
    assert_eq!(different_lines("number 0767\n# between\n= 503\n"), [1, 3]);
    assert_eq!(different_lines("number 0767\n= 503\n= 503\n"), [3]);
}

#[test]
fn a_line_that_cannot_be_read_is_told() {
    let unreadable = [
        "words",
        "Import",
        " import",
        "import x",
        "import 11265",
        "import 11265|1",
        "import 1|11265",
        "import 1|x",
        "import 1|",
        "import |1",
        "import 1|1|1",
        "import -1|1",
        "row pid",
        "row pix|1",
        "extract A|x",
        "extract A|-1",
        "extract A|1|2",
        "identify now",
        "index x",
        "index -1",
        "index 1101",
        "index 1|1",
        "search x",
        "search 1|",
        "search |1",
        "search -1",
        "search 65536",
        "search 1|65536",
        "search 1 2",
        "number \\4",
        "number \\4g",
        "width 3",
        "unsigned 0|1|2",
        "line 0|0|1|1",
        "state 1|0|0|0",
        "state 2|0|0|0|0",
        "state 0|65536|0|0|0",
        "packet 1",
        "packet 12 3",
        "packet 1 23",
        "packet 0x12",
        "fill pid|2|1",
        "fill pid|2|123",
        "fill pix|2|12",
        "fill pid|65538|12",
        "clear pix",
    ];
    for line in unreadable {
        assert_eq!(differences(line), [(1, format!("can't be read: {line}"))]);
    }
}

#[test]
fn what_does_not_fit_is_told() {
    assert_eq!(different_lines("fill pid|65537|41\nfill pid|1|41\n"), [2]);
    assert_eq!(different_lines("fill packet|65537|41\npacket+ 41\npacket 41\n"), [2]);
}

/// The reference, but for what it leaves in import's cells and positions.
struct Tampered(fn(&mut [u16], &mut [u16]));

impl Asked for Tampered {
    fn import(&self, tables: &Tables, cells: &mut [u16], positions: &mut [u16]) -> Answer {
        let answer = Reference.import(tables, cells, positions);
        (self.0)(cells, positions);
        answer
    }

    fn identify(&self, tables: &Tables, packet: &[u8]) -> Answer {
        Reference.identify(tables, packet)
    }

    fn index(&self, tables: &Tables, rows: &mut [u16]) -> Answer {
        Reference.index(tables, rows)
    }

    fn search(&self, tables: &Tables, packet: &[u8], list: &[u16]) -> Answer {
        Reference.search(tables, packet, list)
    }

    fn extract(&self, tables: &Tables, packet: &[u8], name: &[u8], occurrence: usize) -> Answer {
        Reference.extract(tables, packet, name, occurrence)
    }

    fn engineer(&self, tables: &Tables, packet: &[u8], name: &[u8], occurrence: usize) -> Answer {
        Reference.engineer(tables, packet, name, occurrence)
    }

    fn step(&self, tables: &Tables, packet: &[u8], name: &[u8], state: State) -> Answer {
        Reference.step(tables, packet, name, state)
    }

    fn inner(&self, question: &Inner, packet: &[u8]) -> Option<String> {
        Reference.inner(question, packet)
    }
}

/// Rows of reasons 13 and 11, imported with room and without, and one of them by itself.
const MISSPELT: &str = "cap C1|08|0\ncap C1|0|0\nimport 4\n= 2 rows, 0 good: 13:2@2 11:1\n\
    import 1\n= refused 3 at 0\nrow cap|C1|08|0\n= 13:2@2\n";

fn tampered_lines(tamper: fn(&mut [u16], &mut [u16])) -> Vec<usize> {
    run(MISSPELT.as_bytes(), &Tampered(tamper)).differences.into_iter().map(|(line, _)| line).collect()
}

#[test]
fn a_cell_or_position_that_differs_is_told() {
    const UNWRITTEN: u16 = 0xFFFF;
    assert_eq!(tampered_lines(|_, _| {}), []);
    // Touched after a refusal, wrong, missing, and not written
    assert_eq!(tampered_lines(|cells, _| cells[0] = 0), [4, 6, 8]);
    assert_eq!(tampered_lines(|_, positions| positions[0] = 3), [4, 6, 8]);
    assert_eq!(tampered_lines(|_, positions| positions[0] = 0), [4, 6, 8]);
    assert_eq!(tampered_lines(|_, positions| positions.fill(UNWRITTEN)), [4, 8]);
    // Where no position should be, and behind the rows
    assert_eq!(tampered_lines(|_, positions| positions[1..].iter_mut().take(1).for_each(|p| *p = 1)), [4, 8]);
    assert_eq!(
        tampered_lines(|_, positions| positions.iter_mut().skip(3).take(1).for_each(|p| *p = 0)),
        [4, 8]
    );
    assert_eq!(tampered_lines(|cells, _| cells.iter_mut().skip(3).take(1).for_each(|c| *c = 0)), [4, 8]);
}
