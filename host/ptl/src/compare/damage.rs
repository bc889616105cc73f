//! Damage: any bit of the state turned over, any field set to anything, keys out of order, of
//! another form or unseen. Each comes with the steps that undo it.

use super::dots::{self, dot_of_key, label_of_key};
use super::random::Random;
use super::starts::label_key;
use super::trial::Act;
use super::{messages, pools};
use crate::script::{Poke, Rack, Tool};
use limits::{
    ACTOR_MAX, DOT_SIZE, NAME_MAX, NUMBER_SIZE, ROW_SIZE, STATE_ACTOR_AT, STATE_CLOCK_AT,
    STATE_COUNT_AT, STATE_NAME_AT, STATE_SIZE, STATE_TOMBSTONE_AT, STATE_USED_AT,
    TOMBSTONE_DOTS_MAX, WINDOW,
};
use ptl::{Actor, Counter, Dot, State};

/// Steps that damage a controller, or might, and steps that undo them.
pub struct Damage {
    pub acts: Vec<Act>,
    pub undo: Vec<Act>,
}

impl Damage {
    pub fn of(random: &mut Random, rack: &Rack) -> Damage {
        match random.below(9) {
            0 | 1 => Damage::pokes(rack, flipped_bit(random, &rack.state)),
            2 => Damage::pokes(rack, vec![size(random, &rack.state)]),
            3 => Damage::pokes(rack, vec![row(random, &rack.state)]),
            4 => Damage::pokes(rack, slots(random, &rack.state)),
            5 => Damage::pokes(rack, name_or_actor(random, &rack.state)),
            6 => Damage::pokes(rack, store_byte(random, rack)),
            _ => Damage::keys(random, rack),
        }
    }

    fn pokes(rack: &Rack, pokes: Vec<Poke>) -> Damage {
        let undo = pokes.iter().rev().flat_map(|poke| undo(rack, poke));
        let undo = undo.collect();
        Damage {
            undo: tools(undo),
            acts: tools(pokes),
        }
    }

    /// The keys of the store, one of them no longer as it should be.
    fn keys(random: &mut Random, rack: &Rack) -> Damage {
        let kept: Vec<Vec<u8>> = dots::keys(rack).iter().map(|key| key.to_vec()).collect();
        let mut keys = kept.clone();
        spoil(random, rack, &mut keys);
        Damage {
            acts: vec![Act::Keys(keys)],
            undo: vec![Act::Keys(kept)],
        }
    }
}

fn tools(pokes: Vec<Poke>) -> Vec<Act> {
    let tools = pokes.into_iter().map(|poke| Tool::Poke { poke });
    tools.map(Act::Tool).collect()
}

/// Pokes that put back what this one changes.
fn undo(rack: &Rack, poke: &Poke) -> Vec<Poke> {
    let state = &rack.state;
    match poke {
        Poke::Used(_) => vec![Poke::Used(state.used())],
        Poke::Actor(_) => vec![Poke::Actor(state.actor().0)],
        Poke::Name(_) | Poke::NameLength(_) => whole_name(state),
        Poke::Base(actor, _) => vec![Poke::Base(*actor, state.base(Actor(*actor)))],
        Poke::Window(actor, _) => vec![Poke::Window(*actor, state.window(Actor(*actor)))],
        Poke::Dot(slot, ..) => vec![slot_poke(state, *slot)],
        Poke::Count(_) => vec![Poke::Count(state.count())],
        Poke::Byte(offset, _) => {
            let byte = rack.store.get(*offset).copied();
            vec![Poke::Byte(*offset, byte.unwrap_or_default())]
        }
    }
}

fn whole_name(state: &State) -> Vec<Poke> {
    let bytes = state.name_room().to_vec();
    vec![Poke::Name(bytes), Poke::NameLength(state.name_length())]
}

fn slot_poke(state: &State, slot: usize) -> Poke {
    let dot = state.slot(slot).unwrap_or(Dot::from((0, 0)));
    Poke::Dot(slot, dot.actor.0, dot.counter.0)
}

/// One bit of the block turned over, as pokes of the field that it is in.
fn flipped_bit(random: &mut Random, state: &State) -> Vec<Poke> {
    let mut next = state.clone();
    // Half of them in the fields before the tombstone.
    let at = match random.chance(50) {
        true => random.below(STATE_TOMBSTONE_AT),
        false => random.below(STATE_SIZE),
    };
    next.block_mut()[at] ^= 1 << random.below(8);
    match at {
        STATE_ACTOR_AT => vec![Poke::Actor(next.actor().0)],
        STATE_NAME_AT..STATE_CLOCK_AT => whole_name(&next),
        STATE_CLOCK_AT..STATE_TOMBSTONE_AT => vec![row_poke(&next, at - STATE_CLOCK_AT)],
        STATE_TOMBSTONE_AT..STATE_COUNT_AT => {
            vec![slot_poke(&next, (at - STATE_TOMBSTONE_AT) / DOT_SIZE)]
        }
        STATE_COUNT_AT..STATE_USED_AT => vec![Poke::Count(next.count())],
        _ => vec![Poke::Used(next.used())],
    }
}

/// The base or window that this byte of the clock is in.
fn row_poke(state: &State, at: usize) -> Poke {
    let actor = (at / ROW_SIZE + 1) as u8;
    match at % ROW_SIZE < NUMBER_SIZE {
        true => Poke::Base(actor, state.base(Actor(actor))),
        false => Poke::Window(actor, state.window(Actor(actor))),
    }
}

/// A length or a number of dots, near what it was or anything.
fn size(random: &mut Random, state: &State) -> Poke {
    match random.below(3) {
        0 => Poke::Used(pools::number_near(random, state.used())),
        1 => Poke::Count(pools::number_near(random, state.count())),
        _ => Poke::NameLength(pools::number_near(random, state.name_length())),
    }
}

/// A row with another base, or with a window that names what it must not.
fn row(random: &mut Random, state: &State) -> Poke {
    let actor = match random.chance(40) {
        true => state.actor().0.clamp(1, ACTOR_MAX),
        false => dots::actor(random, state).0,
    };
    let (base, window) = (state.base(Actor(actor)), state.window(Actor(actor)));
    match random.below(7) {
        0 => Poke::Base(actor, pools::number_near(random, base)),
        1 => Poke::Base(actor, u64::MAX - random.below(WINDOW as usize + 2) as u64),
        2 | 3 => Poke::Window(actor, window | last_event(random, base)),
        4 => Poke::Window(actor, window | 1),
        5 => Poke::Window(actor, window ^ (1 << random.below(WINDOW as usize))),
        _ => Poke::Window(actor, pools::number(random)),
    }
}

/// The bit of the last event that a window above this base may name, or of the next one.
fn last_event(random: &mut Random, base: u64) -> u64 {
    let left = u64::MAX - base;
    let bit = left.saturating_sub(random.below(2) as u64);
    1 << bit.min(WINDOW - 1)
}

/// A slot of the tombstone, used or not, changed; or two of them exchanged.
fn slots(random: &mut Random, state: &State) -> Vec<Poke> {
    let count = state.tombstone().len();
    let slot = match random.chance(70) {
        true => random.below(count),
        false => random.below(TOMBSTONE_DOTS_MAX),
    };
    let mut dot = state.slot(slot).unwrap_or(Dot::from((1, 1)));
    match random.below(5) {
        0 => dot.counter = Counter(pools::number_near(random, dot.counter.0)),
        1 => dot.actor = Actor(pools::any_actor(random)),
        2 => dot = Dot::from((0, 0)),
        3 => dot = state.slot(slot + 1).unwrap_or(dot),
        _ => {
            let mut next = state.clone();
            let other = random.below(count);
            next.set_slot(other, dot);
            next.set_slot(slot, state.slot(other).unwrap_or(dot));
            return vec![slot_poke(&next, slot), slot_poke(&next, other)];
        }
    }
    vec![Poke::Dot(slot, dot.actor.0, dot.counter.0)]
}

fn name_or_actor(random: &mut Random, state: &State) -> Vec<Poke> {
    match random.below(3) {
        0 => vec![Poke::Actor(pools::any_actor(random))],
        1 => {
            let mut name = pools::any_name(random);
            name.truncate(NAME_MAX);
            vec![Poke::Name(name)]
        }
        _ => {
            let mut bytes = state.name_room().to_vec();
            bytes[random.below(NAME_MAX)] = random.byte();
            vec![Poke::Name(bytes), Poke::NameLength(state.name_length())]
        }
    }
}

/// A byte of the store, most likely a used one.
fn store_byte(random: &mut Random, rack: &Rack) -> Vec<Poke> {
    let reach = match random.chance(90) {
        true => rack.used(),
        false => rack.store.len(),
    };
    let at = random.below(reach);
    let Some(byte) = rack.store.get(at) else {
        return vec![size(random, &rack.state)];
    };
    let byte = match random.below(4) {
        0 => 0,
        1 => byte.wrapping_add(1),
        2 => random.byte(),
        _ => byte ^ 1 << random.below(8),
    };
    vec![Poke::Byte(at, byte)]
}

/// Changes one key, or adds one that does not belong.
fn spoil(random: &mut Random, rack: &Rack, keys: &mut Vec<Vec<u8>>) {
    let at = random.below(keys.len());
    let other = random.below(keys.len());
    let name = rack.state.name();
    match (random.below(8), keys.len()) {
        (0, 1..) => keys.insert(at, keys[at].clone()),
        (1, 2..) => keys.swap(at, other),
        (2, 1..) => messages::garble(random, &mut keys[at]),
        (3, 1..) => {
            keys.remove(at);
        }
        (4, 1..) => {
            let dot = dots::dot(random, rack, true);
            let label = label_of_key(&keys[at], name.len()).to_vec();
            keys[at] = label_key(name, &label, dot);
        }
        (5, 1..) => {
            let dot = dot_of_key(&keys[at]).unwrap_or(Dot::from((1, 1)));
            keys[at] = label_key(name, &pools::any_label(random), dot);
        }
        (6, 1..) => {
            let dot = dot_of_key(&keys[at]).unwrap_or(Dot::from((1, 1)));
            let label = label_of_key(&keys[at], name.len()).to_vec();
            keys[at] = label_key(&pools::any_name(random), &label, dot);
        }
        _ => {
            let mut key = [&[2, 1], name, &[0]].concat();
            key.extend(random.pick(&[b"c\0\x01\0".as_slice(), b"d\0\x01\0", b"z\0\0", b"e\0"]));
            keys.insert(at, key);
        }
    }
}
