//! Dots and contexts that mean something to a controller: seen, stored, removed, next in line, at
//! the window's edge, of its own; and if wild, breaking a rule.

use super::pools;
use super::random::Random;
use crate::script::Rack;
use limits::{ACTOR_MAX, CONTEXT_DOTS_MAX, KEY_END, KEY_FRONT, KEY_MIDDLE, WINDOW};
use ptl::{dots_to_bytes, Actor, Counter, Dot, State};

/// How far above a base an event may lie, and its neighbours.
const EDGES: [u64; 10] = [
    1,
    2,
    3,
    WINDOW - 2,
    WINDOW - 1,
    WINDOW,
    WINDOW + 1,
    WINDOW + 2,
    2 * WINDOW,
    2 * WINDOW + 1,
];

/// The keys of the used part, as far as they have a label key's form.
pub fn keys(rack: &Rack) -> Vec<&[u8]> {
    let front = label_at(rack.state.name().len());
    let mut keys = Vec::new();
    let mut rest = &rack.store[..rack.used()];
    while let Some(label) = rest
        .get(front..)
        .and_then(|rest| rest.iter().position(|b| *b == 0))
    {
        let Some((key, after)) = rest.split_at_checked(front + label + KEY_END) else {
            break;
        };
        keys.push(key);
        rest = after;
    }
    keys
}

/// Where the label begins in a label key of a set whose name has this length.
fn label_at(name: usize) -> usize {
    KEY_FRONT + name + KEY_MIDDLE
}

/// The dot of a label key.
pub fn dot_of_key(key: &[u8]) -> Option<Dot> {
    let (rest, counter) = key.split_last_chunk()?;
    let [.., actor, _] = rest else {
        return None;
    };
    let counter = Counter(u64::from_be_bytes(*counter));
    Some(Dot::new(Actor(*actor), counter))
}

/// The label of a label key of a set whose name has this length.
pub fn label_of_key(key: &[u8], name: usize) -> &[u8] {
    let end = key.len().saturating_sub(KEY_END);
    key.get(label_at(name)..end).unwrap_or_default()
}

/// An actor, likely one with a row that is not zero.
pub fn actor(random: &mut Random, state: &State) -> Actor {
    let known = (1..=ACTOR_MAX).map(Actor);
    let known: Vec<Actor> = known.filter(|a| state.base(*a) > 0).collect();
    match random.any(&known) {
        Some(actor) if random.chance(85) => actor,
        _ => Actor(pools::actor(random)),
    }
}

/// A dot that the clock sees, if the actor has any.
pub fn seen(random: &mut Random, state: &State, actor: Actor) -> Dot {
    let (base, window) = (state.base(actor), state.window(actor));
    let above: Vec<u64> = (0..WINDOW).filter(|bit| window >> bit & 1 == 1).collect();
    let counter = match random.any(&above) {
        Some(bit) if base == 0 || random.chance(30) => base.saturating_add(1 + bit),
        _ if random.chance(60) => base - base.min(random.below(140) as u64),
        _ => 1 + random.next() % base.max(1),
    };
    Dot::new(actor, Counter(counter.max(1)))
}

/// A dot: of a stored key, of the tombstone, seen, or next in line.
fn tame(random: &mut Random, rack: &Rack) -> Dot {
    let state = &rack.state;
    let found = match random.below(8) {
        0..=2 => random.any(&keys(rack)).and_then(dot_of_key),
        3 => random.any(&state.tombstone()),
        _ => None,
    };
    let actor = actor(random, state);
    match found {
        Some(dot) => dot,
        None if actor == state.actor() || random.chance(60) => seen(random, state, actor),
        None => {
            let ahead = 1 + random.below(4) as u64;
            Dot::new(actor, Counter(state.base(actor).saturating_add(ahead)))
        }
    }
}

/// A dot at the edge of a rule, or past it.
fn wild(random: &mut Random, rack: &Rack) -> Dot {
    let state = &rack.state;
    let any = actor(random, state);
    let edge = random.pick(&EDGES);
    let (actor, counter) = match random.below(12) {
        0..=5 => (any, state.base(any).saturating_add(edge)),
        6 | 7 => {
            let own = state.actor();
            let ahead = random.below(3) as u64;
            (own, state.base(own).saturating_add(ahead))
        }
        8 => (Actor(pools::any_actor(random)), 1),
        9 => (any, 0),
        _ => (any, pools::number(random)),
    };
    Dot::new(actor, Counter(counter))
}

/// A dot; one in four is at an edge if it may be wild.
pub fn dot(random: &mut Random, rack: &Rack, may_be_wild: bool) -> Dot {
    match may_be_wild && random.chance(20) {
        true => wild(random, rack),
        false => tame(random, rack),
    }
}

/// The number of dots in a context.
fn size(random: &mut Random, may_be_wild: bool) -> usize {
    match random.below(20) {
        0..=5 => 0,
        6..=11 => 1,
        12..=15 => random.between(2, 5),
        16 | 17 => random.between(6, CONTEXT_DOTS_MAX),
        18 => CONTEXT_DOTS_MAX,
        _ if may_be_wild => random.between(CONTEXT_DOTS_MAX - 1, CONTEXT_DOTS_MAX + 3),
        _ => 2,
    }
}

/// A context in nine bytes a dot: in order but for a few, whole but for a few.
pub fn context(random: &mut Random, rack: &Rack, may_be_wild: bool) -> Vec<u8> {
    let size = size(random, may_be_wild);
    // A long context is kept in order and tame, so that its length alone decides.
    let wild = may_be_wild && size < 6;
    let mut dots = Vec::new();
    for _ in 0..2 * size {
        if dots.len() < size {
            dots.push(dot(random, rack, wild));
            dots.sort();
            dots.dedup();
        }
    }
    let untidy = may_be_wild && random.chance(5);
    if let (true, Some(again)) = (untidy, random.any(&dots)) {
        dots.insert(random.below(dots.len()), again);
    }
    let mut bytes = dots_to_bytes(&dots);
    if may_be_wild && random.chance(2) {
        let length = bytes.len() + random.below(12);
        bytes.resize(length.saturating_sub(6), 1);
    }
    bytes
}

/// Dots of one row, each so far above its base as an edge lies.
pub fn at_edges(random: &mut Random, state: &State, number: usize) -> Vec<Dot> {
    let actor = actor(random, state);
    let base = state.base(actor);
    let mut above = || base.saturating_add(random.pick(&EDGES));
    let counters: Vec<u64> = (0..number).map(|_| above()).collect();
    counters
        .into_iter()
        .map(|counter| Dot::new(actor, Counter(counter)))
        .collect()
}
