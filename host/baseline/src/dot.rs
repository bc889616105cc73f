//! Dots as numbers and as nine bytes, and bytes that hold dots in ascending order.

use limits::{ACTOR_MAX, CONTEXT_MAX, DOT_SIZE};

/// A dot, ordered by actor, then counter.
#[derive(Clone, Copy, PartialEq, Eq, PartialOrd, Ord, Debug)]
pub struct Dot {
    pub actor: u8,
    pub counter: u64,
}

impl Dot {
    /// Below every dot that keeps its rule.
    pub const NONE: Dot = Dot {
        actor: 0,
        counter: 0,
    };

    pub fn of_bytes(bytes: [u8; DOT_SIZE]) -> Dot {
        let [actor, counter @ ..] = bytes;
        let counter = u64::from_be_bytes(counter);
        Dot { actor, counter }
    }

    pub fn to_bytes(self) -> [u8; DOT_SIZE] {
        let mut bytes = [self.actor; DOT_SIZE];
        bytes[1..].copy_from_slice(&self.counter.to_be_bytes());
        bytes
    }

    pub fn keeps_rule(self) -> bool {
        actor_keeps_rule(self.actor) && self.counter != 0
    }
}

pub fn actor_keeps_rule(actor: u8) -> bool {
    (1..=ACTOR_MAX).contains(&actor)
}

/// The dots that stand end to end in these bytes.
pub fn dots(bytes: &[u8]) -> impl Iterator<Item = Dot> + '_ {
    slots(bytes).iter().map(|slot| Dot::of_bytes(*slot))
}

/// The nine bytes of each dot.
pub fn slots(bytes: &[u8]) -> &[[u8; DOT_SIZE]] {
    bytes.as_chunks().0
}

/// Whether these bytes are dots that keep their rule, strictly ascending.
pub fn ascend(bytes: &[u8]) -> bool {
    let mut before = Dot::NONE;
    let mut in_order = |dot: Dot| {
        let ascends = before < dot;
        before = dot;
        ascends && dot.keeps_rule()
    };
    bytes.len().is_multiple_of(DOT_SIZE) && dots(bytes).all(&mut in_order)
}

/// Whether these bytes are a context.
pub fn is_context(bytes: &[u8]) -> bool {
    bytes.len() <= CONTEXT_MAX && ascend(bytes)
}
