//! The fastest form that we know of: bytes are compared by words, lengths of labels are predicted,
//! the pass that judges the store finds the place of a label too, and a table stands before the
//! tombstone.

mod bounds;
mod filter;
mod label;
mod listing;
mod pass;
mod window;

use crate::clock::Clock;
use crate::form::Form;
use crate::keys::Prefix;
use crate::store::place_in;
use crate::words::WORD;
use filter::Filter;
use label::LastLabel;
use limits::{KEY_END, LABEL_MAX};

/// The calls as fast as we know to write them.
#[derive(Clone, Copy, PartialEq, Eq, Debug)]
pub struct Fastest;

/// Room for the longest tail, in whole words: a tail and what follows it.
type Tail = [u8; TAIL_ROOM];
const TAIL_ROOM: usize = (LABEL_MAX + KEY_END).next_multiple_of(WORD);

impl Form for Fastest {
    const NAME: &'static str = "fastest";

    /// Where the keys of the label begin and end.
    type Found = (usize, usize);
    type Ends = LastLabel;
    type Dead<'a> = Filter<'a>;

    fn judge(used: &[u8], prefix: &Prefix, clock: &Clock, label: &[u8]) -> Option<(usize, usize)> {
        pass::judge(used, prefix.bytes(), clock, label)
    }

    fn stretch(found: (usize, usize), _: &[u8], _: usize, _: &[u8]) -> (usize, usize) {
        found
    }

    fn place(found: (usize, usize), used: &[u8], prefix: usize, tail: &[u8]) -> usize {
        place_in(found, used, prefix, tail)
    }

    fn write_listing(used: &[u8], prefix: usize, dead: &Filter, out: &mut [u8]) -> (usize, usize) {
        listing::write(used, prefix, dead, out)
    }
}
