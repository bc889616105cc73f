//! Messages from box to box: written, sent, asked for again, taken in now or later.

use super::calls::{OWN_AHEAD, STORE_FULL, TOO_FAR};
use super::floor::{Floor, Posted};
use super::goods::BOXES;
use super::radio::{Cargo, Flight, Letter};
use crate::script::Command;
use reference::read_message;

/// Ticks that a box waits for a message before it asks for it.
const PATIENCE: u64 = 30;

impl Floor<'_> {
    /// A message was written and kept. It is sent unless the power has failed since.
    pub fn post(&mut self, at: usize, message: Vec<u8>) {
        let Some(read) = read_message(&message).message else {
            return self.fault(at, "writes bytes that are no message".into());
        };
        self.all.take_in(&read);
        self.labels.extend(read.add.map(|(label, _)| label));
        let number = self.posted.len();
        self.posted.push(Posted {
            bytes: message,
            by: at,
            tick: self.tick,
        });
        self.stations[at].accept(number);
        for to in 0..BOXES {
            if to != at && self.is_on(at) {
                self.send(to, number);
            }
        }
    }

    /// Sends a copy of a message to a box.
    pub fn send(&mut self, to: usize, number: usize) {
        let letter = Letter {
            to,
            number,
            message: &self.posted[number].bytes,
            tick: self.tick,
        };
        let (random, tally) = (&mut self.random, &mut self.tally);
        self.radio.send(letter, self.weather, random, tally);
    }

    /// A box asks for one of the oldest messages that it lacks and has waited for.
    pub fn ask_again(&mut self) {
        let to = self.random.below(BOXES);
        let numbers = 0..self.posted.len();
        let missed: Vec<usize> = numbers.filter(|n| self.misses(to, *n)).take(20).collect();
        if let (true, Some(number)) = (self.is_on(to), self.random.any(&missed)) {
            self.asked.insert((to, number), self.tick);
            self.send(to, number);
        }
    }

    fn misses(&self, to: usize, number: usize) -> bool {
        let station = &self.stations[to];
        if station.has_accepted(number) || station.later.contains(&number) {
            return false;
        }
        let asked = self.asked.get(&(to, number)).copied();
        asked.unwrap_or(self.posted[number].tick) + PATIENCE <= self.tick
    }

    /// A copy arrives. A box without power does not hear it; noise must be refused.
    pub fn deliver(&mut self, flight: Flight) {
        let at = flight.to;
        if !self.is_on(at) {
            self.tally.lost += 1;
            return;
        }
        match flight.cargo {
            Cargo::Message(number) => self.take(at, number),
            Cargo::Noise(expected) => {
                let message = flight.bytes;
                let said = self.act(at, &Command::Take { message });
                let answer = said.map_or(0, |said| said.answer);
                if answer != expected {
                    self.fault(at, format!("answers {answer} to noise, not {expected}"));
                }
            }
        }
    }

    /// Takes a message in. One that cannot be taken in yet is kept, to be taken in again.
    fn take(&mut self, at: usize, number: usize) {
        let message = self.posted[number].bytes.clone();
        let Some(said) = self.insist(at, &Command::Take { message }) else {
            return;
        };
        let waits = self.waits(said.answer);
        let station = &mut self.stations[at];
        match said.answer {
            0 => {
                station.accept(number);
                station.fresh += 1;
            }
            _ if waits => {
                if !station.later.contains(&number) {
                    station.later.push(number);
                }
            }
            answer => self.fault(at, format!("answers {answer} to message {number}")),
        }
    }

    /// Whether a message that got this answer is taken in again later. 8 is no answer of an honest day.
    fn waits(&self, answer: u8) -> bool {
        match answer {
            TOO_FAR | STORE_FULL => true,
            OWN_AHEAD => self.breach.is_asked(),
            _ => false,
        }
    }

    /// Takes in again what was kept. If the power fails meanwhile the rest is forgotten.
    pub fn take_later(&mut self, at: usize) {
        self.stations[at].fresh = 0;
        let mut later = std::mem::take(&mut self.stations[at].later);
        later.sort_unstable();
        for number in later {
            if self.is_on(at) {
                self.take(at, number);
            }
        }
    }
}
