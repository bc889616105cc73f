//! The input of the gate's program, `crates/console`, through `ptl console`: the output is the same.

use std::fs::{read_to_string, File};
use std::process::Command;

const INPUT: &str = concat!(env!("CARGO_MANIFEST_DIR"), "/../../crates/console/stdin");
const OUTPUT: &str = concat!(env!("CARGO_MANIFEST_DIR"), "/../../crates/console/stdout");

#[test]
fn the_console_answers_as_the_gate_expects() {
    let file = File::open(INPUT).expect("the input is there");
    let mut console = Command::new(env!("CARGO_BIN_EXE_ptl"));
    let run = console.arg("console").stdin(file).output().expect("runs");
    assert!(run.status.success());
    let said = String::from_utf8(run.stdout).expect("ASCII");
    let mut said = said.lines();
    let input = read_to_string(INPUT).expect("the input is there");
    let output = read_to_string(OUTPUT).expect("the output is there");
    let mut output = output.lines();
    let silent = |line: &&str| line.is_empty() || line.starts_with('#');
    for line in input.lines().filter(|line| !silent(line)) {
        assert_eq!(said.next(), output.next(), "{line}");
    }
    assert_eq!([said.next(), output.next()], [None, None]);
}
