//! Recordings of calls, by which the product is compared with this program call by call.
//!
//!   record stdin --seed S --calls N    a recording of about N calls; how often each call gave
//!                                      each answer goes to standard error
//!   record stdout < LINES              what this program's console answers
//!
//! A recording is lines of the console, and depends on no line before it: each controller's part
//! begins with a set-up and a store lent anew. State and store are shown after every few calls
//! that may change them and at the end of each part. `tests/recording.rs` tells which files are
//! written by this.

#[path = "../../tests/common/mod.rs"]
mod common;
#[path = "record/console.rs"]
mod console;
#[path = "record/controller.rs"]
mod controller;
#[path = "record/edges.rs"]
mod edges;
#[path = "record/fields.rs"]
mod fields;
#[path = "record/images.rs"]
mod images;
#[path = "record/recording.rs"]
mod recording;
#[path = "record/world.rs"]
mod world;

use common::Xorshift;
use console::answers;
use recording::{Recording, Tally, CALLS};
use reference::limits::ANSWERS;
use std::fmt::Write as _;
use std::io::{Read, Write as _};
use world::World;

/// Adds its lines to a recording.
type Block = fn(&mut Recording);

/// The fixed blocks, and what each is about.
const BLOCKS: [(&str, Block); 15] = [
    ("Set-ups", edges::set_ups),
    ("Lines that break the form", edges::broken_lines),
    ("Own calls and lookups", edges::own_calls),
    ("Labels that print", edges::labels),
    ("A store with labels that do not print", edges::older_store),
    ("Pages", edges::pages),
    ("Merged reads", edges::merges),
    ("Images", images::images),
    ("Windows", edges::windows),
    ("Largest counters", edges::largest_counters),
    ("Stores", edges::stores),
    ("A full tombstone", edges::full_tombstone),
    ("Messages", edges::messages),
    ("Keys", edges::keys),
    ("Damage", edges::damage),
];

/// A recording of about so many calls: the fixed blocks, and then worlds of some 300 calls.
fn recorded(seed: u64, calls: usize) -> Recording {
    let mut random = Xorshift(seed.wrapping_mul(0x9E37_79B9_7F4A_7C15) | 1);
    let mut recording = Recording::new();
    for (about, block) in BLOCKS {
        recording.note(about);
        block(&mut recording);
    }
    let mut wild = false;
    while recording.calls < calls {
        let most = calls.min(recording.calls + 300);
        World::new(&mut recording, &mut random, wild).run(&mut random, most);
        wild = !wild;
    }
    recording.end();
    recording
}

/// How often each call gave each answer, as a table.
fn table(tally: &Tally) -> String {
    let mut text = format!("{:11}", "call");
    let answers = 0..ANSWERS as u8;
    for answer in answers.clone() {
        write!(text, "{answer:>5}").expect("a string takes all");
    }
    for call in CALLS {
        let count = |answer| tally.get(&(call, answer)).unwrap_or(&0);
        let counts = answers.clone().map(|a| format!("{:>5}", count(a)));
        let counts: String = counts.collect();
        write!(text, "\n{call:11}{counts}").expect("a string takes all");
    }
    text
}

fn main() -> std::io::Result<()> {
    let words: Vec<String> = std::env::args().skip(1).collect();
    let words: Vec<&str> = words.iter().map(String::as_str).collect();
    let text = match words[..] {
        ["stdout"] => {
            let mut lines = Vec::new();
            std::io::stdin().read_to_end(&mut lines)?;
            answers(&lines)
        }
        ["stdin", "--seed", seed, "--calls", calls] => {
            let (Ok(seed), Ok(calls)) = (seed.parse(), calls.parse()) else {
                return usage();
            };
            let recording = recorded(seed, calls);
            eprintln!("{}", table(&recording.tally));
            let lines = recording.lines.iter();
            lines.map(|line| format!("{line}\n")).collect()
        }
        _ => return usage(),
    };
    std::io::stdout().write_all(text.as_bytes())
}

fn usage() -> std::io::Result<()> {
    eprintln!("usage: record stdin --seed S --calls N | record stdout < LINES");
    std::process::exit(2)
}
