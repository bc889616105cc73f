//! `ptl simulate`: a day of fifteen boxes, a spare one and a bad radio, told in phases. Every box is held
//! to the rule of demand 3 over what it accepted, and in the end to one rule over all messages; every
//! step is held to the premise of demand 3.

mod agreement;
mod breach;
mod calls;
mod day;
mod evening;
mod floor;
mod goods;
mod hold;
mod lamps;
mod mail;
mod picture;
mod premise;
mod radio;
mod station;
mod swap;
mod tally;
mod terminal;
#[cfg(test)]
mod tests;
mod together;
mod weather;
mod work;

use crate::engine::Engine;
pub use breach::Breach;
use calls::Blocked;
use day::PHASES;
use floor::Floor;
use goods::RETURNS_BIN;
use limits::CONTEXT_DOTS_MAX;
use picture::Picture;
use std::fs::File;
use std::io::{self, Write};
use tally::Tally;
use terminal::Counts;

/// What a run is asked for.
#[derive(Clone, PartialEq, Eq, Debug)]
pub struct Options {
    pub seed: u64,
    /// The file that the picture goes to.
    pub svg: Option<String>,
    /// Whether disagreements, what broke the premise and the last line alone are printed.
    pub quiet: bool,
    /// What is to break the premise.
    pub breach: Breach,
}

/// Runs a day. False if a box disagreed with a rule, or the premise broke.
pub fn simulate(
    engine: &dyn Engine,
    options: &Options,
    report: &mut dyn Write,
) -> io::Result<bool> {
    let file = options.svg.as_deref().map(create).transpose()?;
    let mut floor = Floor::new(engine, options.seed);
    floor.breach = options.breach;
    let mut picture = Picture::new(options.seed);
    let loud = !options.quiet;
    if loud {
        head(options, report)?;
    }
    for phase in &PHASES {
        floor.play(phase);
        picture.phase(phase.name, floor.calls);
        if loud {
            writeln!(report, "{}", floor.tally.line(phase.name, floor.agree()))?;
        }
        faults(&mut floor, report)?;
    }
    floor.end();
    if loud {
        foot(&floor, report)?;
    }
    faults(&mut floor, report)?;
    writeln!(report, "{}", floor.last_line())?;
    if let Some(mut file) = file {
        file.write_all(picture.svg(&floor.samples).as_bytes())?;
    }
    Ok(floor.disagreements() == 0 && floor.premise.holds())
}

/// Makes the file before the day begins, so that a wrong name is told at once.
fn create(path: &str) -> io::Result<File> {
    let named = |error: io::Error| io::Error::new(error.kind(), format!("{path}: {error}"));
    File::create(path).map_err(named)
}

/// What the lines will mean.
fn head(options: &Options, report: &mut dyn Write) -> io::Result<()> {
    let seed = options.seed;
    writeln!(
        report,
        "A day of fifteen boxes, a spare one and a bad radio, seed {seed}."
    )?;
    for phase in &PHASES {
        writeln!(report, "  {:<10} {}", phase.name, phase.story)?;
    }
    for story in options.breach.stories() {
        writeln!(report, "{story}")?;
    }
    writeln!(report)?;
    writeln!(report, "{}", Tally::head())?;
    report.flush()
}

/// What was noted since the last time.
fn faults(floor: &mut Floor, report: &mut dyn Write) -> io::Result<()> {
    for fault in floor.new_faults() {
        writeln!(report, "{fault}")?;
    }
    report.flush()
}

/// What the columns of the phases mean.
const LEGEND: &str = "
  calls    adds, removes, messages taken in, compactions
  sent     copies, one message to one box
  lost     by the radio, or because the box had no power
  twice    copies that came a second time
  garbled  copies cut short or changed on the way
  power    power cuts; what a box had not kept in flash is lost
  agree    boxes that list what the rule gives over all messages so far
  answers  0 done; 2 to 7 noise, refused; 10 too far ahead, 11 tombstone full, 12 store full: the box
           compacts, gets a longer store, or keeps the message and takes it in again later
";

/// What the numbers meant, and the table of lamps.
fn foot(floor: &Floor, report: &mut dyn Write) -> io::Result<()> {
    let (mistakable, longest) = (floor.radio.mistakable, floor.longest);
    let Blocked { once, again } = floor.blocked;
    let Counts {
        pages,
        short,
        listings,
        changed,
    } = floor.terminal.counts;
    let two = floor.together.counts;
    let (reads, reread, news) = (two.reads, two.short, two.news);
    let example = floor.together.example.as_deref().unwrap_or("none");
    let swaps = floor.swaps_told();
    write!(
        report,
        "{LEGEND}
{mistakable} garbled copies read as other messages of the set. The format has no check sum: the radio's
own must stop these, and here it does.
Pages of a few labels that a hand terminal read while the boxes worked, each held to the rule of what
the box had accepted by then: {pages}; refused for want of room and read again with more: {short}. Listings
read to their end: {listings}, of them {changed} of boxes that changed between the pages. After each phase the
pages of each box, read with nothing between them, were held to its listing.
Listings of two boxes asked at once while they worked, each held to the rule of what either had accepted
by then: {reads}; refused for want of room and read again with more: {reread}. Of them {news} were what neither
box listed alone. For one: {example}.
Returns of many boxes, all in {RETURNS_BIN}, were cleared by the goods-in desk in one remove: the longest context
of the day has {longest} dots of {CONTEXT_DOTS_MAX}.
Calls that met a tombstone too full for their dots: {once}; that met it again after the compaction
that followed, which leaves the tombstone empty: {again}.
{swaps}

Bins that the lamps of each box light at the end of the day, and whether its listing is that of the
rule of what it accepted and that of one rule of all messages, both computed apart from the boxes. The
first columns are the bins of the gas springs right after the move: by each box alone, and on a terminal
that asked it and their own box at once:

"
    )?;
    for line in floor.lamp_table() {
        writeln!(report, "{line}")?;
    }
    writeln!(report)?;
    premise_told(floor, report)
}

/// What became of the premise, and what came of it if it broke.
fn premise_told(floor: &Floor, report: &mut dyn Write) -> io::Result<()> {
    writeln!(report, "{}", floor.premise.line())?;
    if let Some(forgot) = floor.forgot_told() {
        writeln!(report, "{forgot}")?;
    }
    match floor.premise.holds() {
        true => Ok(()),
        false => writeln!(report, "{}", floor.came_of_it()),
    }
}
