//! The command `ptl` from outside: arguments, streams and exit status.

use limits::ANSWERS;
use std::io::{BufRead, BufReader, Write};
use std::process::{Command, Output, Stdio};
use std::time::{Duration, Instant};

fn ptl(arguments: &[&str]) -> Command {
    let mut command = Command::new(env!("CARGO_BIN_EXE_ptl"));
    command.args(arguments);
    command
}

fn output(arguments: &[&str]) -> Output {
    let output = ptl(arguments).stdin(Stdio::null()).output();
    output.expect("ptl runs")
}

#[test]
fn help_and_version_are_printed() {
    let version = format!("ptl {}\n", env!("CARGO_PKG_VERSION"));
    for (line, start) in [
        ("--help", "usage: ptl console\n"),
        ("-h", "usage: ptl console\n"),
        ("console --help", "usage: ptl console\n"),
        ("compare -h", "usage: ptl console\n"),
        ("--version", &version),
    ] {
        let told = output(&line.split(' ').collect::<Vec<_>>());
        assert_eq!(told.status.code(), Some(0), "{line}");
        assert!(told.stdout.starts_with(start.as_bytes()), "{line}");
        assert!(told.stderr.is_empty(), "{line}");
    }
}

/// Command lines that are wrong, each with what is said of it.
const WRONG: &str = "\
ptl: no command; there are console, compare, simulate, bench
ptl help: no command 'help'; there are console, compare, simulate, bench
ptl --help console: no command '--help'; there are console, compare, simulate, bench
ptl console x: console has no 'x'; it has no options
ptl compare x: compare has no 'x'; it has --calls, --seed, --against
ptl compare --calls: compare --calls wants NUMBER
ptl compare --calls x: compare --calls wants NUMBER, not 'x'
ptl compare --calls -1: compare --calls wants NUMBER, not '-1'
ptl compare --calls 1 --calls 1: compare --calls is given twice
ptl compare --calls 1 --seed: compare --seed wants NUMBER
ptl compare --seed 18446744073709551616: compare --seed wants NUMBER, not '18446744073709551616'
ptl compare --against product: compare --against wants reference, baseline, tuned or fastest, not 'product'
ptl compare --against: compare --against wants reference, baseline, tuned or fastest
ptl bench x: bench has no 'x'; it has --quick, --fastest
ptl bench --quick --quick: bench --quick is given twice
ptl bench --fastest --fastest: bench --fastest is given twice
ptl simulate x: simulate has no 'x'; it has --seed, --svg, --quiet, --forget, --same-actor
ptl simulate --seed: simulate --seed wants NUMBER
ptl simulate --seed x: simulate --seed wants NUMBER, not 'x'
ptl simulate --seed 1 --seed 1: simulate --seed is given twice
ptl simulate --svg: simulate --svg wants a file
ptl simulate --svg a --svg a: simulate --svg is given twice
ptl simulate --quiet --quiet: simulate --quiet is given twice
ptl simulate --quiet x: simulate has no 'x'; it has --seed, --svg, --quiet, --forget, --same-actor
ptl simulate --forget --forget: simulate --forget is given twice
ptl simulate --same-actor 3: simulate has no '3'; it has --seed, --svg, --quiet, --forget, --same-actor
ptl simulate --calls 1: simulate has no '--calls'; it has --seed, --svg, --quiet, --forget, --same-actor
";

#[test]
fn a_wrong_argument_is_told_and_fails() {
    for line in WRONG.lines() {
        let (arguments, wrong) = line.split_once(": ").expect("what is said");
        let words: Vec<&str> = arguments.split(' ').skip(1).collect();
        let refused = output(&words);
        assert_eq!(refused.status.code(), Some(2), "{arguments}");
        assert!(refused.stdout.is_empty(), "{arguments}");
        let told = String::from_utf8(refused.stderr).expect("text");
        let wrong = wrong.replace("NUMBER", "a number from 0 to 18446744073709551615");
        assert_eq!(told, format!("ptl: {wrong} (ptl --help tells more)\n"));
    }
}

#[test]
fn the_console_answers_before_it_is_asked_more() {
    let mut child = ptl(&["console"])
        .stdin(Stdio::piped())
        .stdout(Stdio::piped())
        .spawn()
        .expect("ptl runs");
    let mut input = child.stdin.take().expect("piped");
    let mut answers = BufReader::new(child.stdout.take().expect("piped")).lines();
    let lines = [
        ("@3 setup 1 R1", "setup 0"),
        ("@3 add B7 - 0", "add 13 -"),
        ("# no answer\n\n@3 state", "state 1 R1 0 - -"),
        ("state", "state 0 - 0 - -"),
    ];
    for (line, expected) in lines {
        writeln!(input, "{line}").expect("ptl reads");
        let answer = answers.next().expect("an answer").expect("text");
        assert_eq!(answer, expected);
    }
    drop(input);
    assert!(answers.next().is_none());
    assert_eq!(child.wait().expect("ends").code(), Some(0));
}

/// Each call in the table with its counts, an answer each; -1 where it cannot give one.
fn counts(table: &str) -> Vec<(&str, Vec<i64>)> {
    let lines = table.lines().skip(1);
    let lines = lines.take_while(|line| !line.starts_with("accepted "));
    let row = |line: &'_ str| {
        let cells = line.split_whitespace().skip(1);
        cells.map(|cell| cell.parse().unwrap_or(-1)).collect()
    };
    lines
        .map(|line| (line.split(' ').next().unwrap_or_default(), row(line)))
        .collect()
}

/// Runs the comparison with these arguments too; it passes, and meets every answer.
fn agree_in_200000_calls(more: &[&str]) {
    let arguments = [&["compare", "--calls", "200000", "--seed", "1"], more].concat();
    let run = output(&arguments);
    let table = String::from_utf8(run.stdout).expect("ASCII");
    assert_eq!(run.status.code(), Some(0), "{table}");
    let counts = counts(&table);
    let mut all = 0;
    for (call, counts) in &counts {
        assert_eq!(counts.len(), ANSWERS, "{call}");
        assert!(counts.iter().all(|count| *count != 0), "{call}: {table}");
        all += counts.iter().filter(|count| **count > 0).sum::<i64>();
    }
    assert!((200_000..200_100).contains(&all), "{all}");
    let compact = counts.iter().find(|(call, _)| *call == "compact");
    assert!(compact.is_some_and(|(_, counts)| counts[2..] == [-1; ANSWERS - 2]));
    let progress = String::from_utf8(run.stderr).expect("ASCII");
    assert!(progress.contains(" of 200000 calls, "), "{progress}");
}

#[test]
fn product_and_reference_agree_in_200000_calls() {
    agree_in_200000_calls(&[]);
    let named = output(&["compare", "--against", "reference", "--calls", "100"]);
    assert_eq!(named.status.code(), Some(0));
}

#[test]
fn product_and_baseline_agree_in_200000_calls() {
    agree_in_200000_calls(&["--against", "baseline"]);
}

#[test]
fn product_and_tuned_baseline_agree_in_200000_calls() {
    agree_in_200000_calls(&["--against", "tuned"]);
}

#[test]
fn product_and_fastest_baseline_agree_in_200000_calls() {
    agree_in_200000_calls(&["--against", "fastest"]);
}

#[test]
fn a_quick_bench_passes_in_time() {
    passes_in_time(&["bench", "--quick"], "tuned");
    passes_in_time(&["bench", "--quick", "--fastest"], "fastest");
}

/// Runs a quick bench; this form is timed beside the plain one.
fn passes_in_time(arguments: &[&str], form: &str) {
    let start = Instant::now();
    let run = output(arguments);
    let tables = String::from_utf8(run.stdout).expect("ASCII");
    assert_eq!(run.status.code(), Some(0), "{tables}");
    assert!(tables.contains(&format!(" /{form} ")), "{tables}");
    assert!(tables.contains("\nTaking in 2000 messages"), "{tables}");
    assert!(tables.ends_with("Answers and bytes were equal in every run.\n"));
    assert!(start.elapsed() < Duration::from_secs(120), "{tables}");
}
