//! The console on written scripts and on odd lines, with the product and with the reference.

use super::console;
use crate::engine::{Engine, Product, Second};
use crate::script::{LINE_MAX, RACKS};
use limits::{ACTOR_MAX, NAME_MAX};

const SCRIPTS: [(&str, &str); 4] = [
    ("base", include_str!("../../tests/console/base.script")),
    (
        "formats",
        include_str!("../../tests/console/formats.script"),
    ),
    ("bench", include_str!("../../tests/console/bench.script")),
    (
        "refused",
        include_str!("../../tests/console/refused.script"),
    ),
];

/// All that the console writes for this input.
fn said(engine: &dyn Engine, input: &[u8]) -> String {
    let mut output = Vec::new();
    console(engine, input, &mut output).expect("reads and writes memory");
    String::from_utf8(output).expect("writes ASCII")
}

/// The same from both engines.
fn both(input: &[u8]) -> String {
    let said_by_product = said(&Product, input);
    assert_eq!(said_by_product, said(&Second, input));
    said_by_product
}

/// Runs a script and compares each output line with the one expected.
fn keep_to(name: &str, script: &str, engine: &dyn Engine) {
    let is_expected = |line: &&str| line.starts_with("= ");
    let input: Vec<&str> = script.lines().filter(|line| !is_expected(line)).collect();
    let output = said(engine, input.join("\n").as_bytes());
    let mut output = output.lines();
    let mut before = "";
    for line in script.lines() {
        if let Some(expected) = line.strip_prefix("= ") {
            let said = output.next().unwrap_or("nothing");
            let holds = match expected {
                "?" => said.starts_with("? ") && said.len() > 2,
                _ => said == expected,
            };
            assert!(
                holds,
                "{name}: {before}\nexpected {expected}\nsaid     {said}"
            );
        }
        before = line;
    }
    assert_eq!(output.next(), None, "{name}: more lines than expected");
}

#[test]
fn scripts_on_the_reference() {
    for (name, script) in SCRIPTS {
        keep_to(name, script, &Second);
    }
}

#[test]
fn scripts_on_the_product() {
    for (name, script) in SCRIPTS {
        keep_to(name, script, &Product);
    }
}

#[test]
fn every_line_but_silent_ones_expects_one_line() {
    for (name, script) in SCRIPTS {
        let mut lines = script.lines().peekable();
        while let Some(line) = lines.next() {
            let silent = line.is_empty() || line.starts_with('#');
            let answered = lines.next_if(|line| line.starts_with("= ")).is_some();
            assert_ne!(silent, answered, "{name}: {line}");
        }
    }
}

#[test]
fn the_last_line_may_lack_its_newline() {
    assert_eq!(both(b"setup 1 R1"), "setup 0\n");
    assert_eq!(both(b"setup 1 R1\n"), "setup 0\n");
    assert_eq!(both(b"setup 1 R1\nstate"), "setup 0\nstate 1 R1 0 - -\n");
}

#[test]
fn blank_lines_and_comments_are_silent() {
    assert_eq!(both(b""), "");
    assert_eq!(both(b"\n\n#\n# state\n#\r\n# \n#\xff\n"), "");
}

#[test]
fn odd_bytes_break_the_form() {
    let lines: [&[u8]; 14] = [
        b" ",
        b"  ",
        b"\t",
        b"\r",
        b"state ",
        b"state\r",
        b"state\t",
        b"\rstate",
        b"state\0",
        b"setup 1\tR1",
        b"lookup B7 ",
        b"lookup B7\r",
        b"lookup B\x7f",
        b"lookup \xff",
    ];
    for line in lines {
        let said = both(&[b"@1 setup 1 R1\n", line, b"\n@1 state"].concat());
        let said: Vec<&str> = said.lines().collect();
        assert_eq!(said.len(), 3, "{line:?}");
        assert!(said[1].starts_with("? "), "{line:?} {}", said[1]);
        assert_eq!(said[2], "state 1 R1 0 - -");
    }
}

/// A lookup in a line of this length.
fn long_line(length: usize) -> Vec<u8> {
    let mut line = b"lookup ".to_vec();
    line.resize(length, b'x');
    line
}

#[test]
fn the_longest_line() {
    let setup = b"setup 1 R1\n".to_vec();
    let fits = both(&[setup.clone(), long_line(LINE_MAX), b"\nstate\n".to_vec()].concat());
    assert_eq!(fits, "setup 0\nlookup 5 no 0 0\nstate 1 R1 0 - -\n");
    for more in [1, 2, LINE_MAX, 3 * LINE_MAX] {
        let line = long_line(LINE_MAX + more);
        let over = both(&[setup.clone(), line, b"\nstate\n".to_vec()].concat());
        let over: Vec<&str> = over.lines().collect();
        assert_eq!([over[0], over[2]], ["setup 0", "state 1 R1 0 - -"]);
        assert!(over[1].starts_with("? "));
    }
    let last = both(&long_line(LINE_MAX + 1));
    assert!(last.starts_with("? ") && last.ends_with('\n'));
}

#[test]
fn a_comment_too_has_a_longest_line() {
    let comment = |length: usize| {
        let mut line = vec![b'#'; length];
        line.push(b'\n');
        line
    };
    assert_eq!(both(&comment(LINE_MAX)), "");
    assert!(both(&comment(LINE_MAX + 1)).starts_with("? "));
}

#[test]
fn reasons_that_name_a_limit_name_the_right_one() {
    let last = RACKS - 1;
    assert_eq!(
        both(format!("@{RACKS} state").as_bytes()),
        format!("? controllers are 0 to {last}\n")
    );
    let name = "n".repeat(NAME_MAX + 1);
    assert_eq!(
        both(format!("poke name {name}").as_bytes()),
        format!("? field 2: name over {NAME_MAX} bytes\n")
    );
    assert_eq!(
        both(format!("poke base {} 1", ACTOR_MAX + 1).as_bytes()),
        format!("? field 2: rows are 1 to {ACTOR_MAX}\n")
    );
    assert_eq!(
        both(&long_line(LINE_MAX + 1)),
        format!("? line over {LINE_MAX} bytes\n")
    );
}

#[test]
fn a_context_of_any_length_is_no_break_of_form() {
    let dots: Vec<String> = (1..=20_000).map(|counter| format!("2:{counter}")).collect();
    let line = format!("setup 1 R1\nremove {} 300\n", dots.join(","));
    assert_eq!(both(line.as_bytes()), "setup 0\nremove 6 -\n");
}
