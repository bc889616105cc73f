//! What the arguments of `ptl` ask for, or what is wrong with them.

use crate::bench;
use crate::engine::{Engine, Second, FASTEST, PLAIN, TUNED};
use crate::simulate;
use std::collections::BTreeMap;

pub const USAGE: &str = "\
usage: ptl console
       ptl compare [--calls N] [--seed S] [--against reference|baseline|tuned|fastest]
       ptl simulate [--seed S] [--svg FILE] [--quiet] [--forget] [--same-actor]
       ptl bench [--quick] [--fastest]
       ptl --help | -h | --version

console   runs up to sixteen controllers: a command a line on standard input,
          an answer a line on standard output; a line that breaks the form gives
          `? REASON`, or `? field N: REASON` with the number of the field after the
          command's word
compare   runs N random calls (200000) from the seed S (1) on the product and on
          the reference (or the baseline, or its tuned or fastest form), and stops at
          the first difference with a script of it; exit status 1 on a difference, and
          if N is at least 200000 and an answer that a call can give was not met
simulate  plays a day of fifteen controllers, a spare one and a bad radio from the seed
          S (1): a line a phase, then which bins each lamp lights, and whether the premise
          of demand 3 held at every step; --svg draws to FILE how many agree over time,
          --quiet prints the last line alone. Two options break the premise: --forget has a
          controller come back with an older state and store under its own actor and add,
          --same-actor has two load images under one actor; the clause that broke is told,
          the step, and what came of it. Exit status 1 if the premise breaks, or a
          controller disagrees with the rule of what it accepted, or in the end with the
          rule of all messages
bench     times the product against the plain and the tuned form of the baseline and
          prints tables of times and ratios; --fastest takes the fastest form in place
          of the tuned one, --quick takes a few seconds and is less exact; exit status 1
          if answers or bytes differ
";

/// What the arguments ask for.
pub enum Asked {
    Help,
    Version,
    Console,
    Compare {
        calls: u64,
        seed: u64,
        against: &'static dyn Engine,
    },
    Bench {
        plan: bench::Plan,
        /// The form of the baseline beside the plain one.
        form: &'static dyn Engine,
    },
    Simulate(simulate::Options),
}

/// An option's name, and what its value must be if it has one.
type Choice = (&'static str, Option<&'static str>);

const NUMBER: Option<&str> = Some("a number from 0 to 18446744073709551615");

/// The commands with their options.
const COMMANDS: [(&str, &[Choice]); 4] = [
    ("console", &[]),
    (
        "compare",
        &[
            ("--calls", NUMBER),
            ("--seed", NUMBER),
            ("--against", Some("reference, baseline, tuned or fastest")),
        ],
    ),
    (
        "simulate",
        &[
            ("--seed", NUMBER),
            ("--svg", Some("a file")),
            ("--quiet", None),
            ("--forget", None),
            ("--same-actor", None),
        ],
    ),
    ("bench", &[("--quick", None), ("--fastest", None)]),
];

/// Reads the arguments; an error says which of them is wrong, and what it should be.
pub fn asked(arguments: &[String]) -> Result<Asked, String> {
    let words: Vec<&str> = arguments.iter().map(String::as_str).collect();
    match words.as_slice() {
        ["--help" | "-h"] | [_, "--help" | "-h"] => return Ok(Asked::Help),
        ["--version"] => return Ok(Asked::Version),
        _ => (),
    }
    let given = Given::of(&words)?;
    match given.command {
        "compare" => Ok(Asked::Compare {
            calls: given.number("--calls", 200_000)?,
            seed: given.number("--seed", 1)?,
            against: given.read("--against", engine_of)?.unwrap_or(&Second),
        }),
        "simulate" => Ok(Asked::Simulate(simulate::Options {
            seed: given.number("--seed", 1)?,
            svg: given.values.get("--svg").map(|file| file.to_string()),
            quiet: given.has("--quiet"),
            breach: simulate::Breach {
                forget: given.has("--forget"),
                same_actor: given.has("--same-actor"),
            },
        })),
        "bench" => Ok(Asked::Bench {
            plan: match given.has("--quick") {
                true => bench::QUICK,
                false => bench::FULL,
            },
            form: match given.has("--fastest") {
                true => FASTEST,
                false => TUNED,
            },
        }),
        _ => Ok(Asked::Console),
    }
}

/// What the product can be compared with, by its name.
fn engine_of(name: &str) -> Option<&'static dyn Engine> {
    let engines: [&dyn Engine; 4] = [&Second, PLAIN, TUNED, FASTEST];
    engines.into_iter().find(|engine| engine.name() == name)
}

/// A command with the options that it was given, each once.
struct Given<'a> {
    command: &'static str,
    options: &'static [Choice],
    values: BTreeMap<&'static str, &'a str>,
}

impl<'a> Given<'a> {
    fn of(words: &[&'a str]) -> Result<Given<'a>, String> {
        let commands = || named(COMMANDS.map(|(command, _)| command));
        let Some((word, mut rest)) = words.split_first() else {
            return Err(format!("no command; there are {}", commands()));
        };
        let command = COMMANDS.iter().find(|(command, _)| command == word);
        let Some((command, options)) = command else {
            return Err(format!("no command '{word}'; there are {}", commands()));
        };
        let mut given = Given {
            command,
            options,
            values: BTreeMap::new(),
        };
        while let Some((name, after)) = rest.split_first() {
            rest = given.take(name, after)?;
        }
        Ok(given)
    }

    /// Takes in one option with its value; what follows them.
    fn take<'b>(&mut self, word: &str, after: &'b [&'a str]) -> Result<&'b [&'a str], String> {
        let Some((name, wants)) = self.options.iter().find(|(name, _)| *name == word) else {
            let options = named(self.options.iter().map(|(name, _)| *name));
            let command = self.command;
            return Err(format!("{command} has no '{word}'; it has {options}"));
        };
        let (value, after) = match (wants, after.split_first()) {
            (None, _) => ("", after),
            (Some(_), Some((value, after))) => (*value, after),
            (Some(wants), None) => return Err(format!("{} {name} wants {wants}", self.command)),
        };
        match self.values.insert(name, value) {
            Some(_) => Err(format!("{} {name} is given twice", self.command)),
            None => Ok(after),
        }
    }

    fn has(&self, name: &str) -> bool {
        self.values.contains_key(name)
    }

    /// The value of an option, if it is given.
    fn read<T>(&self, name: &str, of: fn(&str) -> Option<T>) -> Result<Option<T>, String> {
        let Some(value) = self.values.get(name) else {
            return Ok(None);
        };
        let choice = self.options.iter().find(|choice| choice.0 == name);
        let wants = choice.and_then(|choice| choice.1).unwrap_or_default();
        let wrong = || format!("{} {name} wants {wants}, not '{value}'", self.command);
        of(value).map(Some).ok_or_else(wrong)
    }

    fn number(&self, name: &str, usual: u64) -> Result<u64, String> {
        let number = self.read(name, |value| value.parse().ok())?;
        Ok(number.unwrap_or(usual))
    }
}

/// Names in a row.
fn named(names: impl IntoIterator<Item = &'static str>) -> String {
    let names: Vec<&str> = names.into_iter().collect();
    match names.is_empty() {
        true => "no options".to_string(),
        false => names.join(", "),
    }
}

#[test]
fn usage_names_every_command_and_option() {
    for (command, options) in COMMANDS {
        let start = format!(" ptl {command}");
        let line = USAGE.lines().find(|line| line.contains(&start));
        let line = line.expect("a line for each command");
        let named = line.matches(" [--").count();
        assert_eq!(named, options.len(), "{line}");
        for (name, _) in options {
            assert!(line.contains(&format!("[{name}")), "{line}");
        }
    }
}
