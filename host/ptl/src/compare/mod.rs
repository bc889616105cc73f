//! `ptl compare`: random calls on two engines, compared after every call: answer, counts, state,
//! whole store and whole output. Calls from a set-up on are held to the rule of demand 3 too.
//! The run is made of episodes, each with controllers of its own.

mod damage;
mod dots;
mod episode;
mod honest;
mod images;
mod messages;
mod moves;
mod network;
mod pools;
mod report;
mod shrink;
mod starts;
mod tally;
#[cfg(test)]
mod tests;
mod trial;

use crate::engine::Engine;
use crate::random::{self, Random};
use episode::Episode;
use report::Progress;
use std::io::{self, Write};
use tally::Tally;

/// The product, and what it is compared with.
pub type Engines<'a> = [&'a dyn Engine; 2];

/// From so many calls on, every answer that a call can give must be met, and all else that a tally asks.
const FULL_RUN: u64 = 200_000;

/// Runs so many calls. False if a difference was found, or a full run met too few answers.
pub fn compare(
    engines: Engines,
    calls: u64,
    seed: u64,
    report: &mut dyn Write,
) -> io::Result<bool> {
    let mut random = Random::new(seed);
    let mut tally = Tally::new(calls);
    let mut progress = Progress::new(calls);
    while tally.left() > 0 {
        let mut episode = Episode::new(engines, &mut random, &mut tally);
        if let Err(what) = episode.play() {
            let script = episode.into_script();
            progress.end(&tally);
            report::difference(engines, what, script, report)?;
            return Ok(false);
        }
        progress.show(&tally);
    }
    progress.end(&tally);
    verdict(&tally, report)
}

/// Writes the table. False if the run was a full one and an answer was not met.
fn verdict(tally: &Tally, report: &mut dyn Write) -> io::Result<bool> {
    report::table(tally, report)?;
    if tally.done() < FULL_RUN {
        return Ok(true);
    }
    let unmet = tally.unmet();
    for what in &unmet {
        writeln!(report, "not met: {what}")?;
    }
    Ok(unmet.is_empty())
}
