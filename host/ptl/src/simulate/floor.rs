//! The shop floor: fifteen boxes and a spare one, the radio between them, and one rule over all
//! messages.

use super::agreement::Sample;
use super::breach::{Breach, Forgot};
use super::calls::Blocked;
use super::day::Phase;
use super::goods::BOXES;
use super::lamps::AfterMove;
use super::premise::Premise;
use super::radio::Radio;
use super::station::Station;
use super::swap::Swap;
use super::tally::Tally;
use super::terminal::Terminal;
use super::together::Together;
use super::weather::Weather;
use crate::engine::Engine;
use crate::random::Random;
use crate::script::Command;
use reference::Rule;
use std::collections::{BTreeMap, BTreeSet};

/// After so many accepted messages a box tries again those that it kept.
const FRESH: usize = 20;

/// A message that was written. Its author has it in flash, and the office a copy, so that it can be sent
/// again.
pub struct Posted {
    pub bytes: Vec<u8>,
    /// The box that wrote it.
    pub by: usize,
    /// When it was written.
    pub tick: u64,
}

pub struct Floor<'a> {
    pub engine: &'a dyn Engine,
    pub random: Random,
    pub stations: Vec<Station>,
    pub radio: Radio,
    /// Every message written, in order.
    pub posted: Vec<Posted>,
    /// The rule over all of them.
    pub all: Rule,
    /// Every label ever written.
    pub labels: BTreeSet<Vec<u8>>,
    /// When a box last asked for a message, by box and the message's number.
    pub asked: BTreeMap<(usize, usize), u64>,
    pub weather: Weather,
    /// The time.
    pub tick: u64,
    /// Calls of the day; those of the phase are in its tally.
    pub calls: u64,
    pub tally: Tally,
    pub samples: Vec<Sample>,
    /// The most dots that the context of an accepted own call had.
    pub longest: usize,
    /// The labels that the racks' move takes away, and what was seen right after it.
    pub moved: Vec<Vec<u8>>,
    pub after_move: AfterMove,
    /// What a person reads listings with meanwhile.
    pub terminal: Terminal,
    /// Calls that met a full tombstone.
    pub blocked: Blocked,
    /// What a person asks two boxes at once with.
    pub together: Together,
    /// The boxes that died, and how their places were taken.
    pub swapped: Vec<Swap>,
    pub premise: Premise,
    /// What is to break it, and the box that forgot own adds.
    pub breach: Breach,
    pub forgot: Option<Forgot>,
    pub phase: &'static str,
    seed: u64,
    faults: Vec<String>,
    disagreements: usize,
}

impl<'a> Floor<'a> {
    /// Fifteen boxes, set up, in fair weather.
    pub fn new(engine: &'a dyn Engine, seed: u64) -> Floor<'a> {
        let mut floor = Floor {
            engine,
            random: Random::new(seed),
            stations: Vec::new(),
            radio: Radio::default(),
            posted: Vec::new(),
            all: Rule::new(1),
            labels: BTreeSet::new(),
            asked: BTreeMap::new(),
            weather: Weather::FAIR,
            tick: 0,
            calls: 0,
            tally: Tally::default(),
            samples: Vec::new(),
            longest: 0,
            moved: Vec::new(),
            after_move: AfterMove::default(),
            terminal: Terminal::new(seed),
            blocked: Blocked::default(),
            together: Together::new(seed),
            swapped: Vec::new(),
            premise: Premise::default(),
            breach: Breach::default(),
            forgot: None,
            phase: "set-up",
            seed,
            faults: Vec::new(),
            disagreements: 0,
        };
        for at in 0..BOXES {
            let (station, answer) = Station::set_up(engine, at as u8 + 1);
            floor.stations.push(station);
            match answer {
                0 => floor.note_set_up(at),
                _ => floor.fault(at, format!("answers {answer} to its set-up")),
            }
        }
        floor
    }

    /// A phase begins: its weather, fresh counts, and power everywhere.
    pub fn begin(&mut self, phase: &Phase) {
        self.phase = phase.name;
        self.weather = phase.weather;
        self.tally = Tally::default();
        self.power_up();
    }

    /// Every box has power again.
    pub fn power_up(&mut self) {
        for station in &mut self.stations {
            station.off_until = station.off_until.min(self.tick);
        }
    }

    /// Notes a disagreement; of each box the first only. Where the premise broke as it was asked to,
    /// it is counted and no more: demand 3 says nothing then.
    pub fn fault(&mut self, at: usize, what: String) {
        let station = &mut self.stations[at];
        if !std::mem::replace(&mut station.told, true) {
            self.disagreements += 1;
            if self.premise.holds() || !self.breach.is_asked() {
                self.note_line("DISAGREEMENT", at, what);
            }
        }
    }

    /// Notes what a box did, with the call of the day.
    pub fn note_line(&mut self, word: &str, at: usize, what: String) {
        let (seed, call, phase) = (self.seed, self.calls, self.phase);
        self.faults.push(format!(
            "{word}: seed {seed}, call {call} ({phase}), box {}: {what}",
            at + 1
        ));
    }

    /// What was noted since the last time: disagreements, and clauses of the premise that broke.
    pub fn new_faults(&mut self) -> Vec<String> {
        std::mem::take(&mut self.faults)
    }

    pub fn disagreements(&self) -> usize {
        self.disagreements
    }

    /// One tick: some messages are sent again, what arrives is taken in, boxes write images, a page may
    /// be read, and two boxes may be asked at once.
    pub fn pass(&mut self, again: usize) {
        self.tick += 1;
        for _ in 0..again {
            self.ask_again();
        }
        while let Some(flight) = self.radio.arrives(self.tick) {
            self.deliver(flight);
        }
        for at in 0..BOXES {
            let station = &self.stations[at];
            if station.fresh >= FRESH && !station.later.is_empty() {
                self.take_later(at);
            }
        }
        let at = self.random.below(BOXES);
        if self.random.chance(1) && self.is_on(at) {
            self.act(at, &Command::Compact);
        }
        self.write_images();
        self.use_terminal();
        self.ask_two();
    }

    pub fn is_on(&self, at: usize) -> bool {
        self.stations[at].is_on(self.tick)
    }
}
