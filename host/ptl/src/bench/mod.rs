//! `ptl bench`: the product timed against two forms of the baseline, in rounds of three runs in one
//! process whose answers and bytes are compared every time.

mod contexts;
mod data;
mod floor;
mod images;
mod intake;
mod merges;
mod messages;
mod pages;
mod paired;
mod pin;
mod rounds;
mod single;
mod starts;
mod stats;
mod table;
#[cfg(test)]
mod tests;

use crate::engine::Engine;
use images::Images;
use limits::STORE_MAX;
use merges::Merged;
use paired::Paired;
use std::io::{self, Write};
use table::Row;

/// What is timed in a round.
pub const SIDES: usize = 3;
/// The product, and the baseline in its plain and in another form.
pub type Sides<'a> = [&'a dyn Engine; SIDES];
/// What the tables call them.
type Names = [&'static str; SIDES];

fn names(sides: Sides) -> Names {
    ["product", "plain", sides[2].name()]
}

/// How much is measured.
#[derive(Clone, Copy)]
pub struct Plan {
    /// Messages that are taken in.
    pub messages: usize,
    /// Rounds that take all messages in.
    pub intake_rounds: usize,
    /// Rounds of one call.
    pub single_rounds: usize,
}

/// What a table is quoted from.
pub const FULL: Plan = Plan {
    messages: 4_000,
    intake_rounds: 21,
    single_rounds: 101,
};

/// A smaller bench of a few seconds, less exact.
pub const QUICK: Plan = Plan {
    messages: 2_000,
    intake_rounds: 5,
    single_rounds: 11,
};

/// Why a bench ends before its end.
pub enum Stopped {
    /// Answers or bytes differ, or a call that should be accepted is not.
    Differs(String),
    Failed(io::Error),
}

impl From<io::Error> for Stopped {
    fn from(error: io::Error) -> Stopped {
        Stopped::Failed(error)
    }
}

/// Measures and writes the tables. False if answers or bytes differ.
pub fn bench(sides: Sides, plan: Plan, report: &mut dyn Write) -> io::Result<bool> {
    match tables(sides, plan, report) {
        Ok(()) => Ok(true),
        Err(Stopped::Failed(error)) => Err(error),
        Err(Stopped::Differs(what)) => {
            writeln!(report, "difference: {what}")?;
            Ok(false)
        }
    }
}

fn tables(sides: Sides, plan: Plan, report: &mut dyn Write) -> Result<(), Stopped> {
    let names = names(sides);
    table::head(names, plan, pin::pin(), report)?;
    let intake = intake_table(sides, plan, report)?;
    let singles = single_table(sides, plan, report)?;
    let pages = page_table(sides, plan, report)?;
    let merges: Vec<Merged> = paired::measure(sides, plan, report)?;
    let images: Vec<Images> = paired::measure(sides, plan, report)?;
    table::growth(names, &singles, report)?;
    pages::whole_table(sides, plan, report)?;
    contexts::context_table(sides, plan, report)?;
    paired::table(sides, &merges, report)?;
    paired::table(sides, &images, report)?;
    table::worst(names, "taking in", &intake, report)?;
    let full = |row: &&Row| row.used >= 15 * 1024;
    let full: Vec<Row> = singles.iter().filter(full).cloned().collect();
    table::worst(names, "a call at 16 or 64 KiB", &full, report)?;
    table::worst(names, "a page of ten labels", &pages, report)?;
    let merges: Vec<Row> = merges.iter().flat_map(Merged::rows).collect();
    table::worst(names, "a merged read", &merges, report)?;
    let images: Vec<Row> = images.iter().flat_map(Images::rows).collect();
    table::worst(names, "an image", &images, report)?;
    writeln!(report, "Answers and bytes were equal in every run.")?;
    Ok(())
}

fn intake_table(sides: Sides, plan: Plan, report: &mut dyn Write) -> Result<Vec<Row>, Stopped> {
    table::intake_head(names(sides), plan, report)?;
    let (mut rows, mut given) = (Vec::new(), Vec::new());
    for set in data::SETS {
        for name in data::NAMES {
            let (row, answers) = intake::measure(sides, plan, set, name)?;
            table::intake_row(&row, report)?;
            rows.push(row);
            given.push(answers);
        }
    }
    table::answers(&rows, &given, report)?;
    Ok(rows)
}

fn single_table(sides: Sides, plan: Plan, report: &mut dyn Write) -> Result<Vec<Row>, Stopped> {
    table::single_head(names(sides), report)?;
    let mut rows = Vec::new();
    for call in single::CALLS {
        for label in single::LABELS {
            for size in single::SIZES {
                let row = single::measure(sides, plan, call, label, size)?;
                table::single_row(&row, report)?;
                rows.push(row);
            }
        }
    }
    Ok(rows)
}

/// Pages on the largest store.
fn page_table(sides: Sides, plan: Plan, report: &mut dyn Write) -> Result<Vec<Row>, Stopped> {
    let mut rows = Vec::new();
    for call in single::PAGES {
        for label in single::LABELS {
            let row = single::measure(sides, plan, call, label, STORE_MAX)?;
            table::single_row(&row, report)?;
            rows.push(row);
        }
    }
    Ok(rows)
}
