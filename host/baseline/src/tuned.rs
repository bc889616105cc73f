//! The tuned form: as the plain one, but labels are searched for their closing 00 eight bytes at a
//! time, and the pass that judges the store finds the place of a label too.

use crate::clock::Clock;
use crate::form::{Ends, Form};
use crate::keys::Prefix;
use crate::plain::{is_sound, write_live};
use crate::store::place_in;
use crate::tombstone::Tombstone;
use crate::words::first_zero;
use std::cmp::Ordering;

/// The calls as a programmer writes them who counts cycles.
#[derive(Clone, Copy, PartialEq, Eq, Debug)]
pub struct Tuned;

impl Form for Tuned {
    const NAME: &'static str = "tuned";

    /// Where the keys of the label begin and end.
    type Found = (usize, usize);
    type Ends = WordByWord;
    type Dead<'a> = Tombstone<'a>;

    fn judge(used: &[u8], prefix: &Prefix, clock: &Clock, label: &[u8]) -> Option<(usize, usize)> {
        let mut search = Search::of(label);
        let meet = |label: &[u8], end: usize| search.meet(label, end);
        let sound = is_sound::<Tuned>(used, prefix.bytes(), clock, meet);
        sound.then_some((search.start, search.end))
    }

    fn stretch(found: (usize, usize), _: &[u8], _: usize, _: &[u8]) -> (usize, usize) {
        found
    }

    fn place(found: (usize, usize), used: &[u8], prefix: usize, tail: &[u8]) -> usize {
        place_in(found, used, prefix, tail)
    }

    #[inline(always)]
    fn write_listing(
        used: &[u8],
        prefix: usize,
        dead: &Tombstone,
        out: &mut [u8],
    ) -> (usize, usize) {
        write_live::<Tuned>(used, prefix, dead, out)
    }
}

/// Looks at eight bytes after the other.
#[derive(Default)]
pub struct WordByWord;

impl Ends for WordByWord {
    #[inline(always)]
    fn length(&mut self, bytes: &[u8]) -> Option<usize> {
        first_zero(bytes)
    }
}

/// The place of a label among keys that are met in their order.
struct Search<'a> {
    label: &'a [u8],
    /// Where the keys below the label end, and where those of the label do.
    start: usize,
    end: usize,
    /// Whether a key above was met.
    is_over: bool,
}

impl Search<'_> {
    fn of(label: &[u8]) -> Search<'_> {
        Search {
            label,
            start: 0,
            end: 0,
            is_over: false,
        }
    }

    /// Meets a key that has this label and ends here.
    #[inline(always)]
    fn meet(&mut self, label: &[u8], end: usize) {
        if self.is_over {
            return;
        }
        match label.cmp(self.label) {
            Ordering::Less => (self.start, self.end) = (end, end),
            Ordering::Equal => self.end = end,
            Ordering::Greater => self.is_over = true,
        }
    }
}
