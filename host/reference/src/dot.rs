//! Actors, counters, dots and contexts: values that keep their rule once they are made.

use crate::limits::{ACTOR_MAX, CONTEXT_DOTS_MAX, COUNTER_SIZE, DOT_SIZE};

/// An actor, a byte 1 to `ACTOR_MAX`. A type of its own, so that it is never taken for a counter.
#[derive(Clone, Copy, PartialEq, Eq, PartialOrd, Ord, Debug)]
pub struct Actor(u8);

impl Actor {
    pub fn new(byte: u8) -> Option<Actor> {
        (1..=ACTOR_MAX).contains(&byte).then_some(Actor(byte))
    }

    pub fn byte(self) -> u8 {
        self.0
    }
}

/// A counter, 1 to 18446744073709551615.
#[derive(Clone, Copy, PartialEq, Eq, PartialOrd, Ord, Debug)]
pub struct Counter(u64);

impl Counter {
    pub fn new(number: u64) -> Option<Counter> {
        (number >= 1).then_some(Counter(number))
    }

    pub fn number(self) -> u64 {
        self.0
    }
}

/// A dot. The derived order is the rule's: by actor, then counter.
#[derive(Clone, Copy, PartialEq, Eq, PartialOrd, Ord, Debug)]
pub struct Dot {
    pub actor: Actor,
    pub counter: Counter,
}

impl Dot {
    /// The dot of these two numbers, if both keep their rule.
    pub fn new(actor: u8, counter: u64) -> Option<Dot> {
        Some(Dot {
            actor: Actor::new(actor)?,
            counter: Counter::new(counter)?,
        })
    }

    /// Nine bytes: actor, then the counter, highest first.
    pub fn bytes(self) -> [u8; DOT_SIZE] {
        let mut bytes = [0; DOT_SIZE];
        bytes[0] = self.actor.byte();
        bytes[1..].copy_from_slice(&self.counter.number().to_be_bytes());
        bytes
    }

    /// The dot in these nine bytes; none if there are not nine or a part breaks its rule.
    pub fn read(bytes: &[u8]) -> Option<Dot> {
        let (actor, counter) = bytes.split_first()?;
        let counter: [u8; COUNTER_SIZE] = counter.try_into().ok()?;
        Dot::new(*actor, u64::from_be_bytes(counter))
    }
}

/// Dots of nine bytes each, strictly ascending; none if the bytes are not that.
pub fn read_dots(bytes: &[u8]) -> Option<Vec<Dot>> {
    let dots: Vec<Dot> = bytes
        .chunks(DOT_SIZE)
        .map(Dot::read)
        .collect::<Option<_>>()?;
    dots.windows(2).all(|two| two[0] < two[1]).then_some(dots)
}

/// A context: 0 to `CONTEXT_DOTS_MAX` dots, strictly ascending.
pub fn read_context(bytes: &[u8]) -> Option<Vec<Dot>> {
    read_dots(bytes).filter(|dots| dots.len() <= CONTEXT_DOTS_MAX)
}
