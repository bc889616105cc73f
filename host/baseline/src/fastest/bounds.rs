//! The place of a label, found on the way through the keys.

use super::{Tail, TAIL_ROOM};
use crate::words::{high_first, WORD};
use limits::LABEL_MAX;

/// Two bounds between which the keys of a label stand, and how far the pass has come. It meets the
/// keys in their order, as long as they ascend.
pub struct Bounds {
    /// The label with a 00 after it, and with a 01: tails of its keys are not below the first, and
    /// are below the second.
    bounds: [Tail; 2],
    /// Where the first key begins that is not below; the end of the store until it is met.
    places: [usize; 2],
    /// How many of them are met.
    passed: usize,
    /// The first word of the next bound; the largest number if there is none.
    first_word: u64,
    /// Where the first word begins in which the next bound and the key before differ.
    differs: usize,
}

impl Bounds {
    /// The bounds of a label in a store that ends here.
    pub fn new(label: &[u8], end: usize) -> Bounds {
        let mut bound = [0; TAIL_ROOM];
        let length = label.len().min(LABEL_MAX);
        bound[..length].copy_from_slice(&label[..length]);
        let mut above = bound;
        above[length] = 1;
        Bounds {
            bounds: [bound, above],
            places: [end; 2],
            passed: 0,
            first_word: high_first(&bound, 0),
            differs: 0,
        }
    }

    /// Meets a key that begins here.
    #[inline(always)]
    pub fn meet(&mut self, tail: &Tail, at: usize) {
        if high_first(tail, 0) >= self.first_word {
            self.pass(tail, at);
        }
    }

    /// Meets a key that is the same as the one before up to a word, in which it is above. Where the
    /// one before was told from the bound by an earlier word, so is this one.
    #[inline(always)]
    pub fn meet_alike(&mut self, tail: &Tail, word: usize, at: usize) {
        let bound = self.bounds.get(self.passed);
        let may_pass = |bound: &Tail| high_first(tail, word) >= high_first(bound, word);
        if word <= self.differs && bound.is_some_and(may_pass) {
            self.pass(tail, at);
        }
    }

    /// Passes the bounds that this key is not below.
    #[inline(never)]
    fn pass(&mut self, tail: &Tail, at: usize) {
        while let Some(bound) = self.bounds.get(self.passed) {
            let differs = first_difference(tail, bound);
            if high_first(tail, differs) < high_first(bound, differs) {
                self.differs = differs;
                return;
            }
            self.places[self.passed] = at;
            self.passed += 1;
            let next = self.bounds.get(self.passed);
            self.first_word = next.map_or(u64::MAX, |bound| high_first(bound, 0));
        }
    }

    /// Where the label's keys begin and end, when all keys have been met.
    pub fn stretch(&self) -> (usize, usize) {
        let [start, end] = self.places;
        (start, end)
    }
}

/// The first word in which two tails differ; the last one if there is none.
fn first_difference(one: &Tail, other: &Tail) -> usize {
    let (ones, others) = (one.as_chunks::<WORD>().0, other.as_chunks::<WORD>().0);
    let word = { ones.iter().zip(others) }.position(|(one, other)| one != other);
    word.map_or(TAIL_ROOM - WORD, |word| WORD * word)
}
