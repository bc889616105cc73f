//! Sound states to start from, which calls alone would take long to reach: counters near the end,
//! windows of every shape, a nearly full tombstone, stores of any size.

use super::random::Random;
use super::trial::Act;
use super::{dots, pools};
use crate::script::{Command, Poke, Tool};
use limits::{label_key_size, ACTOR_MAX, CONTEXT_DOTS_MAX, STORE_MAX, TOMBSTONE_DOTS_MAX, WINDOW};
use ptl::{Actor, Dot, State};
use std::collections::BTreeSet;

/// Steps that lead to a sound state with so many keys or a few less.
pub fn start(random: &mut Random, keys: usize) -> Vec<Act> {
    let (actor, name) = (pools::actor(random), pools::name(random));
    let mut state = State::zero();
    state.set_actor(Actor(actor));
    let setup = Command::Setup {
        actor,
        name: name.clone(),
    };
    let mut acts = vec![Act::Command(setup)];
    for poke in rows(random, &mut state) {
        acts.push(Act::Tool(Tool::Poke { poke }));
    }
    let removed = tombstone(random, &state);
    let keys = label_keys(random, &state, &removed, &name, keys);
    let length = store_length(random, keys.concat().len(), name.len());
    let fill = random.byte();
    acts.push(Act::Tool(Tool::Buffer { length, fill }));
    if !keys.is_empty() {
        acts.push(Act::Keys(keys));
    }
    if !removed.is_empty() {
        acts.push(Act::Dots(removed));
    }
    acts
}

/// Rows for the own actor and a few others, set in the state and given as pokes.
fn rows(random: &mut Random, state: &mut State) -> Vec<Poke> {
    let own = state.actor().0;
    let mut actors = BTreeSet::from([own]);
    for _ in 0..random.below(4) {
        actors.insert(pools::actor(random));
    }
    let mut pokes = Vec::new();
    for actor in actors {
        let base = base(random);
        let window = match actor == own {
            true => 0,
            false => window(random, base),
        };
        state.set_base(Actor(actor), base);
        state.set_window(Actor(actor), window);
        pokes.push(Poke::Base(actor, base));
        pokes.push(Poke::Window(actor, window));
    }
    pokes.retain(|poke| !matches!(poke, Poke::Base(_, 0) | Poke::Window(_, 0)));
    pokes
}

fn base(random: &mut Random) -> u64 {
    match random.below(4) {
        0 => random.below(4) as u64,
        1 => 100 + random.below(200) as u64,
        2 => u64::MAX - random.below(140) as u64,
        _ => pools::number(random),
    }
}

/// A window whose bit 0 is clear and which names no event past the largest counter.
fn window(random: &mut Random, base: u64) -> u64 {
    let window = match random.below(7) {
        0 => 0,
        1 => !0,
        2 => 1 << (WINDOW - 1),
        3 => 2,
        4 => !0 >> random.below(WINDOW as usize),
        5 => random.next() & random.next(),
        _ => !(1 << random.below(WINDOW as usize)),
    };
    let events_left = u64::MAX - base;
    let room = match events_left {
        0..WINDOW => (1 << events_left) - 1,
        _ => !0,
    };
    window & room & !1
}

/// A tombstone of dots that the clock sees; often nearly full.
fn tombstone(random: &mut Random, state: &State) -> Vec<Dot> {
    let full = TOMBSTONE_DOTS_MAX;
    // A context fills it from here.
    let nearly = full - CONTEXT_DOTS_MAX;
    let most = match random.below(8) {
        0..=2 => 0,
        3 => random.below(6),
        4 => random.between(nearly - 2, nearly + 2),
        5 => full - 1,
        6 => full,
        _ => random.between(full - 8, full),
    };
    let actors = known_actors(state);
    let mut dots = BTreeSet::new();
    for _ in 0..8 * most {
        if let (true, Some(actor)) = (dots.len() < most, random.any(&actors)) {
            dots.insert(dots::seen(random, state, actor));
        }
    }
    dots.into_iter().collect()
}

/// The actors of whom the clock has seen anything.
fn known_actors(state: &State) -> Vec<Actor> {
    let all = (1..=ACTOR_MAX).map(Actor);
    all.filter(|a| (state.base(*a), state.window(*a)) != (0, 0))
        .collect()
}

/// Label keys of seen dots, in order; some of the dots are in the tombstone.
fn label_keys(
    random: &mut Random,
    state: &State,
    removed: &[Dot],
    name: &[u8],
    number: usize,
) -> Vec<Vec<u8>> {
    let actors = known_actors(state);
    let mut keys = BTreeSet::new();
    let mut length = 0;
    for _ in 0..number {
        let dot = match (random.any(removed), random.any(&actors)) {
            (Some(dot), _) if random.chance(30) => dot,
            (_, Some(actor)) => dots::seen(random, state, actor),
            _ => break,
        };
        let key = label_key(name, &pools::stored_label(random), dot);
        let added = key.len();
        if length + added <= STORE_MAX && keys.insert(key) {
            length += added;
        }
    }
    keys.into_iter().collect()
}

/// The bytes of a label key; nothing is checked.
pub fn label_key(name: &[u8], label: &[u8], dot: Dot) -> Vec<u8> {
    let mut key = vec![2, 1];
    key.extend(name);
    key.extend([0, b'e']);
    key.extend(label);
    key.extend([0, dot.actor.0, 0]);
    key.extend(dot.counter.0.to_be_bytes());
    key
}

/// The length of a lent store with so many bytes used: full, or with room for some keys.
pub fn store_length(random: &mut Random, used: usize, name: usize) -> usize {
    let key = label_key_size(name, 0);
    let room = match random.below(24) {
        0 => 0,
        1 => key + random.below(4),
        2 => random.below(100),
        _ => 100 + random.below(400),
    };
    (used + room).min(STORE_MAX)
}
