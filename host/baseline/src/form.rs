//! What the forms do each in its own way. All else is said once, for all of them.

use crate::clock::Clock;
use crate::dot::Dot;
use crate::keys::Prefix;
use crate::tombstone::Tombstone;

/// A form of the calls. The tail of a key is its bytes from the label on.
pub trait Form {
    /// What reports call it.
    const NAME: &'static str;

    /// What judging a store tells of the place of a label's keys.
    type Found: Copy;
    /// How labels are found to end.
    type Ends: Ends;
    /// How dots are found in the tombstone.
    type Dead<'a>: Dead<'a>;

    /// Judges a store: whether these bytes are label keys with this prefix, each dot seen, strictly
    /// ascending. What it gives is about the keys of this label, if the label keeps its rule.
    fn judge(used: &[u8], prefix: &Prefix, clock: &Clock, label: &[u8]) -> Option<Self::Found>;

    /// Where the keys of the label begin and end.
    fn stretch(found: Self::Found, used: &[u8], prefix: usize, label: &[u8]) -> (usize, usize);

    /// Where a key of the label goes, by its tail.
    fn place(found: Self::Found, used: &[u8], prefix: usize, tail: &[u8]) -> usize;

    /// Writes the listing of a sound store, for which there is room: its length and its number of
    /// labels.
    fn write_listing(
        used: &[u8],
        prefix: usize,
        dead: &Self::Dead<'_>,
        out: &mut [u8],
    ) -> (usize, usize);
}

/// Finds where labels end, in the order of the keys of a sound store.
pub trait Ends: Default {
    /// The length of the label at the front of these bytes: a 00 comes after it.
    fn length(&mut self, bytes: &[u8]) -> Option<usize>;

    /// Whether a tail has the label of another, which was the last to be measured and has this
    /// length.
    fn are_same(&self, tail: &[u8], other: &[u8], length: usize) -> bool {
        tail.starts_with(&other[..=length])
    }
}

/// The dots of a tombstone, to be asked about many keys.
pub trait Dead<'a> {
    fn of(tombstone: Tombstone<'a>) -> Self;

    /// Whether this dot is in the tombstone.
    fn has(&self, dot: Dot) -> bool;
}
