//! A terminal that asks two boxes at once, while they work: it shows one listing, in which nothing
//! stands that one of them knows to be gone, and what only one of them has heard of does. Each is
//! held to the rule of what either has accepted by then.

use super::agreement::labels_of;
use super::floor::Floor;
use super::goods::{BOXES, SPRING_BIN};
use super::hold::differs;
use crate::random::Random;
use limits::STORE_MAX;
use ptl::{Answer, Entry, Listing};
use std::collections::BTreeSet;

/// Bytes that terminals have room for.
const ROOMS: [usize; 3] = [1 << 10, 2 << 10, 8 << 10];
/// As many as are always enough.
const AMPLE: usize = 2 * STORE_MAX;
/// Ticks in a hundred at which two boxes are asked.
const ASKS: usize = 5;
/// The phase that the example is of: the boxes differ most then.
const EXAMPLE: &str = "lunch";
/// The box that alone touches the labels of the gas springs.
pub const SPRING_BOX: usize = SPRING_BIN.rack as usize;

const OUTPUT_SHORT: u8 = Answer::OutputShort as u8;

/// The terminal, and what it has read so far.
pub struct Together {
    random: Random,
    pub counts: Counts,
    /// A read that shows what neither box lists alone, in words.
    pub example: Option<String>,
}

#[derive(Clone, Copy, PartialEq, Eq, Debug, Default)]
pub struct Counts {
    pub reads: u64,
    /// Reads refused for their room, and made again with twice as much.
    pub short: u64,
    /// Reads that list what neither box lists alone.
    pub news: u64,
}

impl Together {
    /// A terminal with random numbers of its own: the day is the same without it.
    pub fn new(seed: u64) -> Together {
        Together {
            random: Random::new(seed.rotate_left(32)),
            counts: Counts::default(),
            example: None,
        }
    }

    /// Two boxes.
    fn boxes(&mut self) -> [usize; 2] {
        let (one, further) = (self.random.below(BOXES), self.random.between(1, BOXES - 1));
        [one, (one + further) % BOXES]
    }
}

impl Floor<'_> {
    /// The terminal asks two boxes that have power, if it is time to.
    pub fn ask_two(&mut self) {
        if !self.together.random.chance(ASKS) {
            return;
        }
        let boxes = self.together.boxes();
        if !boxes.iter().all(|at| self.is_on(*at)) {
            return;
        }
        let mut room = self.together.random.pick(&ROOMS);
        let mut read = self.read_two(boxes, room);
        while read == Err(OUTPUT_SHORT) && room < AMPLE {
            self.together.counts.short += 1;
            room *= 2;
            read = self.read_two(boxes, room);
        }
        if let Ok(listing) = read {
            self.take_together(boxes, &listing);
        }
    }

    /// What two boxes list as one, held to the rule of what either has accepted; or the answer that
    /// refuses it, which must be that for an output that is too short, and only then.
    fn read_two(&mut self, [one, two]: [usize; 2], room: usize) -> Result<Listing, u8> {
        let (first, second) = (&self.stations[one], &self.stations[two]);
        let rule = first.rule().over_both(second.rule());
        let read = first.merged(self.engine, second, room);
        let is_short = rule.listing().0.len() > room;
        let wrong = match (&read, is_short) {
            (Err(OUTPUT_SHORT), true) => None,
            _ => differs(read.clone().ok(), &rule),
        };
        if let Some(what) = wrong {
            let two = two + 1;
            self.fault(
                one,
                format!("with box {two} {what}, by the rule of what either accepted"),
            );
        }
        read
    }

    /// Takes in what two boxes list as one.
    fn take_together(&mut self, boxes: [usize; 2], listing: &Listing) {
        self.together.counts.reads += 1;
        let alone = boxes.map(|at| self.stations[at].listing(self.engine));
        if alone.iter().flatten().any(|alone| alone == listing) {
            return;
        }
        self.together.counts.news += 1;
        if self.together.example.is_none() && self.phase == EXAMPLE {
            let listed = alone.map(|alone| labels(alone.as_ref()));
            self.together.example = example(boxes, listed, &labels(Some(listing)));
        }
    }

    /// Holds what a box and the next one list as one to the rule, asked either way.
    pub fn hold_together(&mut self, at: usize) {
        let next = (at + 1) % BOXES;
        for boxes in [[at, next], [next, at]] {
            let _ = self.read_two(boxes, AMPLE);
        }
    }

    /// What a terminal shows that asks a box and that of the gas springs.
    pub fn entries_with_springs(&self, at: usize) -> Vec<Entry> {
        let (station, springs) = (&self.stations[at], &self.stations[SPRING_BOX]);
        let merged = station.merged(self.engine, springs, AMPLE);
        merged.map_or(Vec::new(), |listing| listing.entries())
    }
}

fn labels(listing: Option<&Listing>) -> BTreeSet<Vec<u8>> {
    labels_of(&listing.map_or(Vec::new(), Listing::entries))
}

/// What is new to either box, and what is gone by what one of them knows; none if one of these is
/// nothing.
fn example(
    [one, two]: [usize; 2],
    [first, second]: [BTreeSet<Vec<u8>>; 2],
    both: &BTreeSet<Vec<u8>>,
) -> Option<String> {
    let new = [&first, &second].map(|listed| both.difference(listed).count());
    let gone = first.union(&second).filter(|label| !both.contains(*label));
    let gone = gone.count();
    let told = new[0] > 0 && new[1] > 0 && gone > 0;
    let lengths = [&first, &second, both].map(BTreeSet::len);
    let (one, two) = (one + 1, two + 1);
    told.then(|| {
        format!(
            "at {EXAMPLE} box {one} listed {} labels and box {two} listed {}. A terminal that\n\
             asked both showed {}: {} new to the one, {} new to the other, and without {gone} that one of them knew\n\
             to be gone",
            lengths[0], lengths[1], lengths[2], new[0], new[1],
        )
    })
}
