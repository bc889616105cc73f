//! The store: label keys end to end, ascending. Going through the keys of one that is sound.

use crate::dot::Dot;
use crate::form::{Dead, Ends, Form};
use limits::KEY_END;

/// A label key of a sound store.
#[derive(Clone, Copy)]
pub struct Key<'a> {
    /// Where the key begins.
    pub at: usize,
    /// Its bytes from the label on.
    pub tail: &'a [u8],
}

impl<'a> Key<'a> {
    pub fn label(self) -> &'a [u8] {
        &self.tail[..self.tail.len() - KEY_END]
    }

    pub fn dot(self) -> Dot {
        dot_of(self.tail).unwrap_or(Dot::NONE)
    }
}

/// The dot at the end of these bytes. None where a 00 before or in it is missing.
pub fn dot_of(tail: &[u8]) -> Option<Dot> {
    let [0, actor, 0, counter @ ..] = *tail.last_chunk::<KEY_END>()? else {
        return None;
    };
    let counter = u64::from_be_bytes(counter);
    Some(Dot { actor, counter })
}

/// The bytes of the first key from its label on, and what follows them.
#[inline(always)]
fn first_tail<'a>(
    used: &'a [u8],
    prefix: usize,
    ends: &mut impl Ends,
) -> Option<(&'a [u8], &'a [u8])> {
    let body = used.get(prefix..)?;
    body.split_at_checked(ends.length(body)? + KEY_END)
}

/// The keys of a sound store, in order.
pub fn keys<F: Form>(used: &[u8], prefix: usize) -> Keys<'_, F> {
    Keys {
        rest: used,
        at: 0,
        prefix,
        ends: F::Ends::default(),
    }
}

/// Goes from key to key; the prefix is passed over.
pub struct Keys<'a, F: Form> {
    rest: &'a [u8],
    at: usize,
    prefix: usize,
    ends: F::Ends,
}

impl<'a, F: Form> Iterator for Keys<'a, F> {
    type Item = Key<'a>;

    fn next(&mut self) -> Option<Key<'a>> {
        let (tail, rest) = first_tail(self.rest, self.prefix, &mut self.ends)?;
        let at = self.at;
        self.at += self.prefix + tail.len();
        self.rest = rest;
        Some(Key { at, tail })
    }
}

/// A label and all its keys, which stand end to end and have one length.
pub struct Run<'a> {
    pub label: &'a [u8],
    pub number: usize,
    pub dots: Dots<'a>,
}

/// The dots of keys of one length.
#[derive(Clone)]
pub struct Dots<'a> {
    keys: &'a [u8],
    length: usize,
}

impl Iterator for Dots<'_> {
    type Item = Dot;

    #[inline(always)]
    fn next(&mut self) -> Option<Dot> {
        let (key, keys) = self.keys.split_at_checked(self.length)?;
        self.keys = keys;
        dot_of(key)
    }
}

/// The labels of a sound store, in order.
pub fn runs<F: Form>(used: &[u8], prefix: usize) -> Runs<'_, F> {
    Runs {
        rest: used,
        prefix,
        ends: F::Ends::default(),
    }
}

/// Goes from label to label.
pub struct Runs<'a, F: Form> {
    rest: &'a [u8],
    prefix: usize,
    ends: F::Ends,
}

impl<'a, F: Form> Iterator for Runs<'a, F> {
    type Item = Run<'a>;

    #[inline(always)]
    fn next(&mut self) -> Option<Run<'a>> {
        let first = self.rest.get(self.prefix..)?;
        let label = first.get(..self.ends.length(first)?)?;
        let length = self.prefix + label.len() + KEY_END;
        let same = |tail: &[u8]| self.ends.are_same(tail, first, label.len());
        let (mut number, mut end) = (1, length);
        while { self.rest.get(end + self.prefix..end + length) }.is_some_and(same) {
            number += 1;
            end += length;
        }
        let (keys, rest) = self.rest.split_at(end);
        self.rest = rest;
        let dots = Dots { keys, length };
        Some(Run {
            label,
            number,
            dots,
        })
    }
}

/// Where a key goes in the stretch of its label, by its tail. By halving: the keys of a label have
/// one length.
pub fn place_in((start, end): (usize, usize), used: &[u8], prefix: usize, tail: &[u8]) -> usize {
    let length = prefix + tail.len();
    let (mut low, mut high) = (0, (end - start) / length);
    while low < high {
        let middle = low + (high - low) / 2;
        let key = start + middle * length;
        match used[key + prefix..key + length] < *tail {
            true => low = middle + 1,
            false => high = middle,
        }
    }
    start + low * length
}

/// Puts a key into the used part, for which there is room after it.
pub fn insert(store: &mut [u8], used: usize, at: usize, key: &[u8]) {
    store.copy_within(at..used, at + key.len());
    store[at..at + key.len()].copy_from_slice(key);
}

/// Drops the keys whose dots are in the tombstone and sets the freed bytes to 0. Gives the used
/// length.
pub fn drop_dead<'a, F: Form>(
    store: &mut [u8],
    used: usize,
    prefix: usize,
    dead: F::Dead<'a>,
) -> usize {
    let mut ends = F::Ends::default();
    // Keys from `run` to `at` are kept and not yet moved down to `kept`.
    let (mut kept, mut run, mut at) = (0, 0, 0);
    while let Some((tail, _)) = first_tail(&store[at..used], prefix, &mut ends) {
        let (length, dot) = (prefix + tail.len(), dot_of(tail).unwrap_or(Dot::NONE));
        if dead.has(dot) {
            store.copy_within(run..at, kept);
            kept += at - run;
            run = at + length;
        }
        at += length;
    }
    store.copy_within(run..used, kept);
    kept += used - run;
    store[kept..used].fill(0);
    kept
}
