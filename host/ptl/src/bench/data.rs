//! The sets of labels and the set names that messages are taken in with.

use crate::random::Random;
use limits::LABEL_MAX;

/// How labels look.
#[derive(Clone, Copy, PartialEq, Eq, Debug)]
pub enum Labels {
    /// Of 1 to 3 bytes.
    Short,
    /// Of any length.
    Mixed,
    /// Rack, shelf and bin, as in `R4-S012-B07`.
    Bins,
    /// Of the longest length, all but the last 5 bytes the same.
    Deep,
}

pub const SETS: [Labels; 4] = [Labels::Short, Labels::Mixed, Labels::Bins, Labels::Deep];

/// A short set name, and one of the longest length.
pub const NAMES: [&[u8]; 2] = [b"R1", b"warehouse-07-R1a"];

const LETTERS: &[u8] = b"0123456789ABCDEFGHIJKLMNOPQRSTUVWXYZ";

impl Labels {
    pub fn word(self) -> &'static str {
        match self {
            Labels::Short => "short",
            Labels::Mixed => "mixed",
            Labels::Bins => "bins",
            Labels::Deep => "deep",
        }
    }

    /// A label of the set.
    pub fn label(self, random: &mut Random) -> Vec<u8> {
        match self {
            Labels::Short => {
                let length = random.between(1, 3);
                letters(random, length)
            }
            Labels::Mixed => {
                let length = random.between(1, LABEL_MAX);
                letters(random, length)
            }
            Labels::Bins => {
                let (rack, shelf) = (random.below(10), random.below(40));
                let bin = random.below(24);
                format!("R{rack}-S{shelf:03}-B{bin:02}").into_bytes()
            }
            Labels::Deep => {
                let bin = random.below(100_000);
                format!("hall-3/aisle-17/rack-4/bin-{bin:05}").into_bytes()
            }
        }
    }
}

/// So many letters and digits.
pub fn letters(random: &mut Random, number: usize) -> Vec<u8> {
    (0..number).map(|_| random.pick(LETTERS)).collect()
}
