//! The input and the expected output of the gate's program, `crates/console`, against `record`.
//!
//! `stdin` has two parts, cut by a mark: worked cases, written with their output from documents 01
//! and 02, and a recording, which `record stdin` writes. `record stdout` gives the output of both: so
//! this program is held to the cases, and the product to all of it. To write the recording anew, keep
//! `stdin` up to the mark and append to it; of `record stdout < stdin` the lines of the cases must
//! be those that stand there.
use std::collections::{BTreeMap, BTreeSet};
use std::fs::{read_to_string, File};
use std::process::{Command, Stdio};

const INPUT: &str = concat!(env!("CARGO_MANIFEST_DIR"), "/../../crates/console/stdin");
const OUTPUT: &str = concat!(env!("CARGO_MANIFEST_DIR"), "/../../crates/console/stdout");
const MARK: &str = "# ---- recording";
const ASCENDING: &str = "# ==== Keys in ascending order, in each case";

/// The answers that each call can give.
const ANSWERS: [(&str, &[u8]); 14] = [
    ("setup", &[0, 5]),
    ("add", &[0, 1, 5, 6, 8, 9, 10, 11, 12, 13]),
    ("remove", &[0, 1, 6, 8, 10, 11, 13]),
    ("take", &[0, 1, 2, 3, 4, 5, 6, 7, 8, 10, 11, 12]),
    ("list", &[0, 1, 13]),
    ("page", &[0, 1, 5, 13]),
    ("merge", &[0, 1, 7, 13]),
    ("lookup", &[0, 1, 5]),
    ("compact", &[0, 1]),
    ("image", &[0, 1, 13]),
    ("load", &[0, 1, 2, 3, 4, 5, 6, 12, 14, 15]),
    ("key", &[0, 5, 6, 13]),
    ("readkey", &[0, 4]),
    ("readmessage", &[0, 2, 3, 4, 5, 6]),
];

/// What `record` writes, given these words and this standard input.
fn record(words: &[&str], input: Stdio) -> String {
    let mut command = Command::new(env!("CARGO_BIN_EXE_record"));
    let done = command.args(words).stdin(input).output().expect("runs");
    assert!(done.status.success(), "record {words:?}");
    String::from_utf8(done.stdout).expect("text")
}

/// The committed file.
fn committed(path: &str) -> String {
    read_to_string(path).unwrap_or_else(|error| panic!("{path}: {error}"))
}

/// Both parts of the input.
fn parts() -> [String; 2] {
    let input = committed(INPUT);
    let mark = format!("\n{MARK}\n");
    let parts: Vec<&str> = input.split(&mark).collect();
    let [cases, recording] = parts[..] else {
        panic!("the mark stands once");
    };
    [cases, recording].map(str::to_string)
}

/// The lines of both parts, each with its output line; blank lines and comments have none.
fn answered() -> [Vec<(String, String)>; 2] {
    let output = committed(OUTPUT);
    let mut output = output.lines();
    let pairs = parts().map(|part| {
        let silent = |line: &str| line.is_empty() || line.starts_with('#');
        let pair = |line: &str| match silent(line) {
            true => (line.to_string(), String::new()),
            false => (line.to_string(), output.next().expect("a line").to_string()),
        };
        part.lines().map(pair).collect()
    });
    assert_eq!(output.next(), None, "more output than lines");
    pairs
}

#[test]
fn the_recording_is_what_record_writes() {
    let words = ["stdin", "--seed", "1", "--calls", "1600"];
    let written = record(&words, Stdio::null());
    assert!(parts()[1] == written, "record {words:?} differs");
}

#[test]
fn the_output_is_what_record_writes() {
    let input = File::open(INPUT).expect("the input is there");
    let written = record(&["stdout"], input.into());
    let mut written = written.lines();
    let lines = answered().concat();
    for (line, expected) in lines.iter().filter(|(_, expected)| !expected.is_empty()) {
        assert_eq!(written.next(), Some(expected.as_str()), "{line}");
    }
    assert_eq!(written.next(), None);
}

#[test]
fn every_answer_is_met_and_no_other() {
    for part in answered() {
        let mut met: BTreeMap<String, BTreeSet<u8>> = BTreeMap::new();
        for (_, said) in part {
            let mut fields = said.split(' ');
            let word = fields.next().unwrap_or_default().to_string();
            let answer = fields.next().and_then(|field| field.parse::<u8>().ok());
            met.entry(word).or_default().extend(answer);
        }
        for (call, answers) in ANSWERS {
            let answers = answers.iter().copied().collect();
            assert_eq!(met.get(call), Some(&answers), "{call}");
        }
    }
}

#[test]
fn keys_ascend_where_the_cases_say_so() {
    let [cases, _] = answered();
    let from = cases.iter().position(|(line, _)| line == ASCENDING);
    let section = &cases[from.expect("the section is there") + 1..];
    let section = section.split(|(line, _)| line.starts_with("# ====")).next();
    let mut compared = 0;
    for case in section
        .unwrap_or_default()
        .split(|(line, _)| line.starts_with('#'))
    {
        let said = case.iter().map(|(_, said)| said.as_str());
        let keys: Vec<&str> = said
            .filter_map(|said| said.strip_prefix("key 0 "))
            .collect();
        assert!(keys.is_sorted_by(|a, b| a < b), "{keys:?}");
        compared += keys.len().saturating_sub(1);
    }
    assert!(compared >= 8, "{compared}");
}
