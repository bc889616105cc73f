//! The radio: it loses messages, brings them twice or late and so out of order, cuts and garbles
//! them.
//!
//! The message format has no check sum. Garbled bytes that still read as a message of the set can
//! be told from a true one by no box; the radio's own check must stop these, and here it does.

use super::goods::SET;
use super::tally::Tally;
use super::weather::Weather;
use crate::random::Random;
use limits::MESSAGE_HEAD;
use ptl::Answer;
use std::collections::BTreeMap;

/// What is on its way.
#[derive(Clone, Copy, PartialEq, Eq, Debug)]
pub enum Cargo {
    /// The message of this number, whole.
    Message(usize),
    /// Garbled bytes, which the box must refuse with this answer.
    Noise(u8),
}

/// A copy on its way to a box.
pub struct Flight {
    pub to: usize,
    pub cargo: Cargo,
    pub bytes: Vec<u8>,
}

/// A message that is to be sent to a box.
#[derive(Clone, Copy)]
pub struct Letter<'m> {
    pub to: usize,
    pub number: usize,
    pub message: &'m [u8],
    /// When it is sent.
    pub tick: u64,
}

/// The copies on their way, by the tick at which they arrive and the order of sending.
#[derive(Default)]
pub struct Radio {
    air: BTreeMap<(u64, u64), Flight>,
    sent: u64,
    /// Garbled copies that read as another message of the set.
    pub mistakable: u64,
}

impl Radio {
    /// Sends a letter, for better or worse.
    pub fn send(
        &mut self,
        letter: Letter,
        weather: Weather,
        random: &mut Random,
        tally: &mut Tally,
    ) {
        tally.sent += 1;
        if random.chance(weather.lost) {
            tally.lost += 1;
            return;
        }
        self.fly(letter, weather, random, tally);
        if random.chance(weather.twice) {
            tally.twice += 1;
            self.fly(letter, weather, random, tally);
        }
    }

    /// A copy sets off, garbled or whole.
    fn fly(&mut self, letter: Letter, weather: Weather, random: &mut Random, tally: &mut Tally) {
        let mut bytes = letter.message.to_vec();
        if random.chance(weather.garbled) {
            garble(random, &mut bytes);
            tally.garbled += 1;
        }
        let cargo = match refusal(&bytes) {
            _ if bytes == letter.message => Cargo::Message(letter.number),
            Some(answer) => Cargo::Noise(answer),
            None => {
                self.mistakable += 1;
                return;
            }
        };
        self.sent += 1;
        let due = letter.tick + delay(random, weather);
        let to = letter.to;
        self.air
            .insert((due, self.sent), Flight { to, cargo, bytes });
    }

    /// The next copy that arrives by this tick.
    pub fn arrives(&mut self, tick: u64) -> Option<Flight> {
        let first = self.air.first_entry()?;
        (first.key().0 <= tick).then(|| first.remove())
    }

    pub fn is_empty(&self) -> bool {
        self.air.is_empty()
    }
}

/// Ticks that a copy takes: a few, or many.
fn delay(random: &mut Random, weather: Weather) -> u64 {
    let most = match random.chance(weather.late) {
        true => 150,
        false => 15,
    };
    random.between(1, most) as u64
}

/// Cuts bytes off, or changes some of them.
fn garble(random: &mut Random, bytes: &mut Vec<u8>) {
    let at = random.below(bytes.len());
    match random.below(4) {
        0 => bytes.truncate(at),
        1 => {
            bytes.drain(..at);
        }
        2 => flip(random, bytes, at),
        _ => {
            let end = bytes.len().min(at + random.between(2, 6));
            bytes[at..end].fill_with(|| random.byte());
        }
    }
}

/// Changes one bit; half the time one of the mark, the version, the kind or the name.
fn flip(random: &mut Random, bytes: &mut [u8], at: usize) {
    let at = match random.chance(50) {
        true => random.below(MESSAGE_HEAD + SET.len()),
        false => at,
    };
    if let Some(byte) = bytes.get_mut(at) {
        *byte ^= 1 << random.below(8);
    }
}

/// The answer that refuses these bytes; none if they read as a message of the set.
fn refusal(bytes: &[u8]) -> Option<u8> {
    let read = reference::read_message(bytes);
    match read.message {
        None => Some(read.answer),
        Some(message) if message.name != SET => Some(Answer::OtherSet.number()),
        Some(_) => None,
    }
}
