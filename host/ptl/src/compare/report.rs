//! What a run says: how far it is, the table of answers met, and the script of a difference.

use super::shrink::{shown, shrink, Shown};
use super::tally::Tally;
use super::trial::{Act, Step, Trial, What, FILL};
use super::Engines;
use crate::engine::Engine;
use crate::script::{line_to, Both, Command, Poke, Rack, Tool, Worded};
use std::io::{self, IsTerminal, Write};
use std::time::{Duration, Instant};

/// The progress line on standard error.
pub struct Progress {
    wanted: u64,
    start: Instant,
    next: Instant,
    terminal: bool,
}

impl Progress {
    pub fn new(wanted: u64) -> Progress {
        let start = Instant::now();
        Progress {
            wanted,
            start,
            next: start,
            terminal: io::stderr().is_terminal(),
        }
    }

    /// Shows how far the run is, if it is time to: in place on a terminal, else a line at times.
    pub fn show(&mut self, tally: &Tally) {
        if Instant::now() < self.next {
            return;
        }
        let pause = if self.terminal { 1 } else { 10 };
        self.next = Instant::now() + Duration::from_secs(pause);
        let end = if self.terminal { "\r" } else { "\n" };
        eprint!("{}{end}", self.line(tally));
    }

    /// Shows it for the last time.
    pub fn end(&self, tally: &Tally) {
        eprintln!("{}", self.line(tally));
    }

    fn line(&self, tally: &Tally) -> String {
        let seconds = self.start.elapsed().as_secs_f64().max(0.001);
        let pace = tally.done() as f64 / seconds;
        let (done, wanted) = (tally.done(), self.wanted);
        format!("compare: {done} of {wanted} calls, {pace:.0} a second")
    }
}

/// The table of answers met.
pub fn table(tally: &Tally, report: &mut dyn Write) -> io::Result<()> {
    for line in tally.lines() {
        writeln!(report, "{line}")?;
    }
    Ok(())
}

/// Shrinks the script of a difference and writes it, with what either side says.
pub fn difference(
    engines: Engines,
    what: What,
    script: Vec<Step>,
    report: &mut dyn Write,
) -> io::Result<()> {
    writeln!(report, "difference: {what}")?;
    let Some(found) = shown(engines, script) else {
        return writeln!(report, "its script does not show it again");
    };
    let Shown { script, what } = shrink(engines, found);
    writeln!(report, "script: {what}, after the last line")?;
    for step in &script {
        for line in step_lines(step) {
            writeln!(report, "{line}")?;
        }
    }
    said(engines, &script, report)
}

/// The lines of a step.
fn step_lines(step: &Step) -> Vec<String> {
    let poke = |poke| line(step.rack, &Tool::Poke { poke });
    match &step.act {
        Act::Command(command) => vec![line(step.rack, command)],
        Act::Both(both) => vec![line(0, both)],
        Act::Tool(tool) => vec![line(step.rack, tool)],
        Act::Keys(keys) => {
            let bytes = keys.concat();
            let used = Poke::Used(bytes.len() as u64);
            let bytes = bytes.into_iter().enumerate();
            let pokes = bytes.map(|(at, byte)| Poke::Byte(at, byte)).chain([used]);
            pokes.map(poke).collect()
        }
        Act::Dots(dots) => {
            let count = Poke::Count(dots.len() as u64);
            let slots = dots.iter().enumerate();
            let pokes = slots.map(|(slot, dot)| Poke::Dot(slot, dot.actor.0, dot.counter.0));
            pokes.chain([count]).map(poke).collect()
        }
    }
}

/// A line; as a comment if the console does not read it.
fn line(rack: usize, asked: &impl Worded) -> String {
    line_to(rack, asked).unwrap_or_else(|bare| format!("# with bytes in hexadecimal: {bare}"))
}

/// What either side says to the last line, and where their states, stores and outputs differ.
fn said(engines: Engines, script: &[Step], report: &mut dyn Write) -> io::Result<()> {
    let Some((last, before)) = script.split_last() else {
        return Ok(());
    };
    let mut trial = Trial::new(engines);
    for step in before {
        let _ = trial.step(step);
    }
    let sides = [0, 1].map(|side| Said::of(engines[side], &mut trial, side, last));
    let [Some(product), Some(other)] = &sides else {
        return Ok(());
    };
    let name = format!("{}:", engines[1].name());
    writeln!(report, "{:<10} {}", "product:", product.line)?;
    writeln!(report, "{name:<10} {}", other.line)?;
    if product.rack.state != other.rack.state {
        writeln!(report, "{:<10} {}", "product:", product.rack.state_line())?;
        writeln!(report, "{name:<10} {}", other.rack.state_line())?;
    }
    let of = |what| (what, engines[1].name());
    differing_byte(of("state"), product.block(), other.block(), report)?;
    differing_byte(of("store"), &product.rack.store, &other.rack.store, report)?;
    differing_byte(of("output"), &product.out, &other.out, report)
}

/// What one side says, and what it leaves.
struct Said {
    line: String,
    rack: Rack,
    out: Vec<u8>,
}

impl Said {
    /// None if the step is no call.
    fn of(engine: &dyn Engine, trial: &mut Trial, side: usize, step: &Step) -> Option<Said> {
        match &step.act {
            Act::Command(command) => {
                let rack = trial.side(step.rack, side).clone();
                Some(Said::of_command(engine, rack, command))
            }
            Act::Both(both) => Some(Said::of_both(engine, trial, side, both)),
            _ => None,
        }
    }

    fn of_command(engine: &dyn Engine, mut rack: Rack, command: &Command) -> Said {
        let mut out = vec![FILL; command.out()];
        let line = engine.run(&mut rack, command, &mut out).line(command, &out);
        Said { line, rack, out }
    }

    fn of_both(engine: &dyn Engine, trial: &mut Trial, side: usize, both: &Both) -> Said {
        let Both::Merge { first, second, .. } = *both;
        let [rack, other] = [first, second].map(|at| trial.side(at, side).clone());
        let mut out = vec![FILL; both.out()];
        let reply = engine.merge(&rack, &other, &mut out);
        let line = reply.line_of_both(both, &out);
        Said { line, rack, out }
    }

    fn block(&self) -> &[u8] {
        self.rack.state.block()
    }
}

/// The first byte in which two sides differ, with the words for what it is of and for the other
/// side.
fn differing_byte(
    (of, name): (&str, &str),
    product: &[u8],
    other: &[u8],
    report: &mut dyn Write,
) -> io::Result<()> {
    let mut bytes = product.iter().zip(other).enumerate();
    match bytes.find(|(_, (one, other))| one != other) {
        Some((at, (one, other))) => writeln!(
            report,
            "{of} byte {at}: {one:02x} of the product, {other:02x} of the {name}"
        ),
        None => Ok(()),
    }
}
