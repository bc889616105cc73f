//! "What a controller holds": the state as given, and the same as values. Reading gives
//! nothing for a damaged state; writing gives the one form of the state and the key bytes.

use crate::clock::Clock;
use crate::dot::{read_dots, Actor, Dot};
use crate::keys::{label_key, name_keeps_rule, read_key, KeyKind};
use crate::limits::{
    CLOCK_WORDS, DOT_SIZE, KEY_END, KEY_FIXED, KEY_START, NAME_MAX, STORE_MAX, TOMBSTONE_SIZE,
};
use std::collections::BTreeSet;

/// A controller's state in plain numbers, which may be damaged.
#[derive(Clone, PartialEq, Eq, Debug)]
pub struct State {
    pub actor: u8,
    /// The set name; bytes past `name_len` are zero.
    pub name: [u8; NAME_MAX],
    pub name_len: u64,
    /// Base and window of actor a at 2(a-1) and 2(a-1)+1.
    pub clock: [u64; CLOCK_WORDS],
    /// The bytes of `count` dots: actor, counter highest first; those past them are zero.
    pub tombstone: [u8; TOMBSTONE_SIZE],
    pub count: u64,
    /// Used length of the store.
    pub used: u64,
}

impl State {
    /// Zero throughout, actor 0 included: what a refused set-up gives.
    pub fn zero() -> State {
        State {
            actor: 0,
            name: [0; NAME_MAX],
            name_len: 0,
            clock: [0; CLOCK_WORDS],
            tombstone: [0; TOMBSTONE_SIZE],
            count: 0,
            used: 0,
        }
    }
}

/// An undamaged state and its store as values. The order of the pairs, label then dot, is
/// the byte order of their keys.
#[derive(Clone)]
pub struct Held {
    pub actor: Actor,
    pub name: Vec<u8>,
    pub clock: Clock,
    pub tombstone: BTreeSet<Dot>,
    pub store: BTreeSet<(Vec<u8>, Dot)>,
}

impl Held {
    /// None if the state is damaged or the store longer than `STORE_MAX` (answer 1).
    pub fn read(state: &State, store: &[u8]) -> Option<Held> {
        if store.len() > STORE_MAX {
            return None;
        }
        let actor = Actor::new(state.actor)?;
        let name = filled(&state.name, state.name_len, 1)?;
        if !name_keeps_rule(name) {
            return None;
        }
        let clock = Clock::from_rows(&state.clock)?;
        if !clock.window_is_empty(actor) {
            return None;
        }
        let tombstone = read_dots(filled(&state.tombstone, state.count, DOT_SIZE)?)?;
        let used = store.get(..usize::try_from(state.used).ok()?)?;
        let pairs = read_pairs(name, used)?;
        let mut dots = tombstone.iter().chain(pairs.iter().map(|(_, dot)| dot));
        dots.all(|dot| clock.sees(*dot)).then(|| Held {
            actor,
            name: name.to_vec(),
            clock: clock.clone(),
            tombstone: tombstone.iter().copied().collect(),
            store: pairs,
        })
    }

    /// The state of these values with the clock's rows given.
    pub fn state(&self, clock: [u64; CLOCK_WORDS]) -> State {
        let mut state = State::zero();
        state.actor = self.actor.byte();
        state.name[..self.name.len()].copy_from_slice(&self.name);
        state.name_len = self.name.len() as u64;
        state.clock = clock;
        for (place, dot) in state.tombstone.chunks_mut(DOT_SIZE).zip(&self.tombstone) {
            place.copy_from_slice(&dot.bytes());
        }
        state.count = self.tombstone.len() as u64;
        state.used = self.used() as u64;
        state
    }

    /// The length of a label's key.
    pub fn key_length(&self, label: &[u8]) -> usize {
        self.name.len() + label.len() + KEY_FIXED
    }

    /// The used length of the store.
    pub fn used(&self) -> usize {
        self.store.iter().map(|(l, _)| self.key_length(l)).sum()
    }

    /// The used bytes of the store: the keys end to end.
    pub fn store_bytes(&self) -> Vec<u8> {
        let keys = self.store.iter().map(|(l, d)| label_key(&self.name, l, *d));
        keys.flatten().collect()
    }
}

/// The first `count` pieces of `size` bytes; none if there are not as many or a later byte
/// is not zero.
fn filled(bytes: &[u8], count: u64, size: usize) -> Option<&[u8]> {
    let length = usize::try_from(count).ok()?.checked_mul(size)?;
    let rest = bytes.get(length..)?;
    rest.iter()
        .all(|b| *b == 0)
        .then_some(&bytes[..bytes.len() - rest.len()])
}

/// The pairs of label keys that stand end to end, strictly ascending in byte order, each of
/// this set; none if the bytes are not that.
fn read_pairs(name: &[u8], used: &[u8]) -> Option<BTreeSet<(Vec<u8>, Dot)>> {
    let mut pairs = BTreeSet::new();
    let mut before: &[u8] = &[];
    let mut rest = used;
    while !rest.is_empty() {
        let key = first_key(name, rest)?;
        let read = read_key(key);
        if read.kind != Some(KeyKind::Label) || read.name != name || key <= before {
            return None;
        }
        pairs.insert((read.label, Dot::new(read.actor, read.counter)?));
        before = key;
        rest = &rest[key.len()..];
    }
    Some(pairs)
}

/// The bytes up to where a label key of this set would end, found by the 00 after its label.
fn first_key<'a>(name: &[u8], bytes: &'a [u8]) -> Option<&'a [u8]> {
    let label_at = name.len() + KEY_START;
    let label_length = bytes.get(label_at..)?.iter().position(|b| *b == 0)?;
    bytes.get(..label_at + label_length + KEY_END)
}
