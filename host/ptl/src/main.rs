//! The command `ptl`: the label set of a pick-to-light controller at the bench.

mod arguments;
mod bench;
mod compare;
mod console;
mod engine;
mod random;
mod rule;
mod script;
mod simulate;

use arguments::{asked, Asked, USAGE};
use engine::{Product, PLAIN};
use std::env;
use std::io::{self, Write};
use std::process::ExitCode;

const VERSION: &str = concat!("ptl ", env!("CARGO_PKG_VERSION"), "\n");

fn main() -> ExitCode {
    let arguments: Vec<String> = env::args_os()
        .skip(1)
        .map(|argument| argument.to_string_lossy().into_owned())
        .collect();
    let done = match asked(&arguments) {
        Ok(asked) => obey(asked),
        Err(wrong) => {
            eprintln!("ptl: {wrong} (ptl --help tells more)");
            return ExitCode::from(2);
        }
    };
    if let Err(error) = &done {
        eprintln!("ptl: {error}");
    }
    ExitCode::from(status(&done))
}

/// Does what is asked for; false if it found what it must not find.
fn obey(asked: Asked) -> io::Result<bool> {
    let mut output = io::stdout().lock();
    match asked {
        Asked::Help => output.write_all(USAGE.as_bytes()).map(|()| true),
        Asked::Version => output.write_all(VERSION.as_bytes()).map(|()| true),
        Asked::Console => {
            let output = io::BufWriter::new(output);
            console::console(&Product, io::stdin().lock(), output).map(|()| true)
        }
        Asked::Compare {
            calls,
            seed,
            against,
        } => compare::compare([&Product, against], calls, seed, &mut output),
        Asked::Bench { plan, form } => bench::bench([&Product, PLAIN, form], plan, &mut output),
        Asked::Simulate(options) => simulate::simulate(&Product, &options, &mut output),
    }
}

/// The exit status of a command that ended well or not.
fn status(done: &io::Result<bool>) -> u8 {
    match done {
        Ok(true) => 0,
        Ok(false) | Err(_) => 1,
    }
}
