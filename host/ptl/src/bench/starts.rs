//! Controllers with a store of a certain size, to time single calls on.

use super::data::letters;
use crate::random::Random;
use crate::script::Rack;
use limits::{label_key_size, ACTORS, ACTOR_MAX, STORE_MAX};
use ptl::{write_key, Actor, Dot, Key, Label, SetName, State};
use std::collections::BTreeSet;

pub const NAME: &str = "R1";
/// Dots in the tombstone, if the store has twice as many keys.
const REMOVED: usize = 64;
/// The dots that own calls have as context: seen, and not in the tombstone.
pub const CONTEXT: [(u8, u64); 2] = [(2, 1), (3, 1)];

/// A controller, and a label that it has in the middle of its store if it has any.
pub struct Start {
    pub rack: Rack,
    pub label: Vec<u8>,
}

/// A controller with as many keys of labels of this length as go in so many bytes, with room for
/// one more.
pub fn start(label: usize, size: usize) -> Start {
    start_of(label, size, ACTORS)
}

/// The same with dots of so many actors; the rows of the others are empty.
pub fn start_of(label: usize, size: usize, actors: usize) -> Start {
    let mut random = Random::new(label as u64);
    let length = label_key_size(NAME.len(), label);
    let number = (size / length).min(STORE_MAX / length - 1);
    let mut keys = Keys::new();
    for index in 0..number {
        let dot = Dot::from(((index % actors) as u8 + 1, (index / actors) as u64 + 1));
        keys.insert((label_of(&mut random, label), dot));
    }
    let most = (number / actors) as u64 + 1;
    let base = |actor: u8| most * u64::from(usize::from(actor) <= actors);
    let middle = keys.iter().nth(number / 2).map(|(label, _)| label.clone());
    let rack = rack(&keys, length, base, 1);
    let label = middle.unwrap_or_else(|| label_of(&mut random, label));
    Start { rack, label }
}

/// Two controllers with so many keys each, of labels of this length. Half of the keys both have; the
/// dots of the others are of eight actors for either, and the other has seen none of them.
pub fn alike(label: usize, number: usize) -> [Rack; 2] {
    let mut random = Random::new(label as u64);
    let length = label_key_size(NAME.len(), label);
    let (common, actors) = (number / 2, ACTORS / 2);
    let mut both = Keys::new();
    for index in 0..common {
        let dot = Dot::from(((index % ACTORS) as u8 + 1, (index / ACTORS) as u64 + 1));
        both.insert((label_of(&mut random, label), dot));
    }
    let base = common.div_ceil(ACTORS) as u64;
    let own = (number - common).div_ceil(actors) as u64;
    [0, 1].map(|side| {
        let mut keys = both.clone();
        for index in 0..number - common {
            let actor = side * actors + index % actors + 1;
            let counter = base + (index / actors) as u64 + 1;
            keys.insert((
                label_of(&mut random, label),
                Dot::from((actor as u8, counter)),
            ));
        }
        let is_own = |actor: u8| usize::from(actor - 1) / actors == side;
        let base = |actor: u8| base + own * u64::from(is_own(actor));
        rack(&keys, length, base, 0)
    })
}

/// Labels with dots, in the order of their keys.
type Keys = BTreeSet<(Vec<u8>, Dot)>;

/// A controller that has these keys of one length, and room for so many more. Of each actor it has
/// seen as many events as its base says.
fn rack(keys: &Keys, length: usize, base: impl Fn(u8) -> u64, room: usize) -> Rack {
    Rack {
        state: state(keys, keys.len() * length, base),
        store: store(keys, (keys.len() + room) * length),
    }
}

/// A label of this length; longer ones begin alike.
fn label_of(random: &mut Random, length: usize) -> Vec<u8> {
    let front = &b"hall-3/aisle-17/rack-4/"[..length.saturating_sub(12).min(20)];
    let mut label = front.to_vec();
    label.extend(letters(random, length - front.len()));
    label
}

fn state(keys: &Keys, used: usize, base: impl Fn(u8) -> u64) -> State {
    let mut state = State::zero();
    state.set_actor(Actor(1));
    state.set_name(NAME.as_bytes());
    for actor in 1..=ACTOR_MAX {
        state.set_base(Actor(actor), base(actor));
    }
    let removed = removed(keys);
    for (slot, dot) in removed.iter().enumerate() {
        state.set_slot(slot, *dot);
    }
    state.set_count(removed.len() as u64);
    state.set_used(used as u64);
    state
}

/// Dots of stored keys, evenly spread over the store.
fn removed(keys: &Keys) -> BTreeSet<Dot> {
    let number = REMOVED.min(keys.len() / 2);
    let dots: Vec<Dot> = keys.iter().map(|(_, dot)| *dot).collect();
    let keys = (0..number).map(|index| dots[index * dots.len() / number]);
    keys.filter(|dot| CONTEXT.iter().all(|other| *dot != Dot::from(*other)))
        .collect()
}

/// The bytes of the keys, and zeros after them.
fn store(keys: &Keys, length: usize) -> Vec<u8> {
    let mut store = Vec::new();
    for (label, dot) in keys {
        let key = Key::Label {
            name: SetName::from(NAME),
            label: Label(label.clone()),
            dot: *dot,
        };
        store.extend(write_key(&key).unwrap_or_default());
    }
    store.resize(length, 0);
    store
}
