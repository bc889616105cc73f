//! The evening: every message is sent again to each box that lacks it, until none does. Then all
//! boxes compact, and hold the same.

use super::day::shuffle;
use super::floor::Floor;
use super::goods::BOXES;
use super::weather::Weather;
use crate::script::Command;

/// After so many rounds in which no box accepted anything new, radio and power are made perfect; if
/// nothing is accepted then either, the rest is given up.
const IDLE_ROUNDS: usize = 2;
/// Copies sent at a tick.
const BURST: usize = 8;

impl Floor<'_> {
    /// Goes on until all boxes have accepted all messages and nothing is on its way.
    pub fn get_through(&mut self) {
        let mut idle = 0;
        let mut lacking = self.lacking();
        while !lacking.is_empty() && idle <= IDLE_ROUNDS {
            if idle == IDLE_ROUNDS {
                self.weather = Weather::STILL;
                self.power_up();
            }
            shuffle(&mut self.random, &mut lacking);
            self.round(&lacking);
            let left = self.lacking();
            idle = match left.len() < lacking.len() {
                true => 0,
                false => idle + 1,
            };
            lacking = left;
        }
        self.drain();
        for at in 0..BOXES {
            let lacks = lacking.iter().filter(|(to, _)| *to == at).count();
            if lacks > 0 {
                self.fault(at, format!("has not accepted {lacks} messages"));
            }
        }
    }

    /// Each box with each message that it has not accepted.
    fn lacking(&self) -> Vec<(usize, usize)> {
        let numbers = 0..self.posted.len();
        let pairs = numbers.flat_map(|number| (0..BOXES).map(move |to| (to, number)));
        let lacks = |pair: &(usize, usize)| !self.stations[pair.0].has_accepted(pair.1);
        pairs.filter(lacks).collect()
    }

    /// Sends what is lacking, waits for it to arrive, and takes in again what was kept.
    fn round(&mut self, lacking: &[(usize, usize)]) {
        for burst in lacking.chunks(BURST) {
            for (to, number) in burst {
                if !self.stations[*to].later.contains(number) {
                    self.send(*to, *number);
                }
            }
            self.pass(0);
        }
        self.drain();
        for at in 0..BOXES {
            self.take_later(at);
        }
    }

    /// Waits until nothing is on its way.
    fn drain(&mut self) {
        while !self.radio.is_empty() {
            self.pass(0);
        }
    }

    /// The day is over: all boxes compact, and their lists, lamps, keys and clocks must be those of
    /// one rule, their tombstones empty.
    pub fn end(&mut self) {
        self.weather = Weather::STILL;
        self.power_up();
        for at in 0..BOXES {
            self.act(at, &Command::Compact);
        }
        self.hold_all();
        for at in 0..BOXES {
            self.hold_to_all(at);
        }
        self.hold_alike();
    }
}
