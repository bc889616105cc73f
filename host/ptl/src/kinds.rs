//! Actors, counters, dots, labels and set names, as types that cannot be mixed up. They hold any
//! value; the library judges whether it keeps its rule.

use limits::DOT_SIZE;

/// An actor; 1 to `limits::ACTOR_MAX` keep the rule.
#[derive(Clone, Copy, PartialEq, Eq, PartialOrd, Ord, Hash, Debug)]
pub struct Actor(pub u8);

/// A counter; all but 0 keep the rule.
#[derive(Clone, Copy, PartialEq, Eq, PartialOrd, Ord, Hash, Debug)]
pub struct Counter(pub u64);

/// A dot, ordered by actor, then counter.
#[derive(Clone, Copy, PartialEq, Eq, PartialOrd, Ord, Hash, Debug)]
pub struct Dot {
    pub actor: Actor,
    pub counter: Counter,
}

impl Dot {
    pub fn new(actor: Actor, counter: Counter) -> Dot {
        Dot { actor, counter }
    }

    /// The dot of these bytes: the actor, then the counter, highest byte first.
    pub fn of_bytes(bytes: [u8; DOT_SIZE]) -> Dot {
        let [actor, counter @ ..] = bytes;
        Dot::new(Actor(actor), Counter(u64::from_be_bytes(counter)))
    }

    pub fn to_bytes(self) -> [u8; DOT_SIZE] {
        let mut bytes = [self.actor.0; DOT_SIZE];
        bytes[1..].copy_from_slice(&self.counter.0.to_be_bytes());
        bytes
    }
}

impl From<(u8, u64)> for Dot {
    fn from((actor, counter): (u8, u64)) -> Dot {
        Dot::new(Actor(actor), Counter(counter))
    }
}

/// The dots that stand end to end in these bytes; what is left over at the end is no dot.
pub fn dots_of(bytes: &[u8]) -> Vec<Dot> {
    let nines = bytes.chunks_exact(DOT_SIZE);
    nines
        .filter_map(|nine| nine.try_into().ok())
        .map(Dot::of_bytes)
        .collect()
}

/// Dots end to end, as contexts are given to the library.
pub fn dots_to_bytes(dots: &[Dot]) -> Vec<u8> {
    dots.iter().flat_map(|dot| dot.to_bytes()).collect()
}

/// A label; 1 to `limits::LABEL_MAX` bytes, none of them 0, keep the rule. Adds take it if every
/// byte is `limits::PRINT_MIN` to `limits::PRINT_MAX`; calls that only read take any.
#[derive(Clone, PartialEq, Eq, PartialOrd, Ord, Hash, Debug)]
pub struct Label(pub Vec<u8>);

/// A set name; 1 to `limits::NAME_MAX` bytes, none of them 0, keep the rule.
#[derive(Clone, PartialEq, Eq, PartialOrd, Ord, Hash, Debug)]
pub struct SetName(pub Vec<u8>);

impl From<&str> for Label {
    fn from(text: &str) -> Label {
        Label(text.into())
    }
}

impl From<&str> for SetName {
    fn from(text: &str) -> SetName {
        SetName(text.into())
    }
}
