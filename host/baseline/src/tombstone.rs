//! The tombstone in its place in the block: dots in ascending order, then zeros.

use crate::block::{self, Block};
use crate::clock::Clock;
use crate::dot::{self, ascend, dots, Dot};
use limits::{DOT_SIZE, TOMBSTONE_DOTS_MAX, TOMBSTONE_SIZE};

static ZEROS: [u8; TOMBSTONE_SIZE] = [0; TOMBSTONE_SIZE];

/// The dots of an undamaged tombstone.
#[derive(Clone, Copy)]
pub struct Tombstone<'a> {
    slots: &'a [[u8; DOT_SIZE]],
}

impl<'a> Tombstone<'a> {
    /// The tombstone of a block that has so many dots in it.
    pub fn of(block: &'a Block, count: usize) -> Tombstone<'a> {
        Tombstone {
            slots: &dot::slots(block::tombstone_room(block))[..count],
        }
    }

    pub fn dots(self) -> impl Iterator<Item = Dot> + 'a {
        self.slots.iter().map(|slot| Dot::of_bytes(*slot))
    }

    pub fn is_empty(self) -> bool {
        self.slots.is_empty()
    }

    /// The slot that has this dot, or the one where it would go.
    pub fn find(self, dot: Dot) -> Result<usize, usize> {
        self.slots
            .binary_search_by_key(&dot, |slot| Dot::of_bytes(*slot))
    }

    /// Whether this dot is in this slot.
    pub fn is_at(self, slot: usize, dot: Dot) -> bool {
        self.slots
            .get(slot)
            .is_some_and(|slot| Dot::of_bytes(*slot) == dot)
    }

    pub fn has(self, dot: Dot) -> bool {
        self.find(dot).is_ok()
    }
}

/// The number of dots. None if the tombstone breaks a rule or has a dot that the clock lacks.
pub fn check(block: &Block, clock: &Clock) -> Option<usize> {
    let count = usize::try_from(block::count(block)).ok()?;
    if count > TOMBSTONE_DOTS_MAX {
        return None;
    }
    let (used, rest) = block::tombstone_room(block).split_at(count * DOT_SIZE);
    let sound = rest == &ZEROS[..rest.len()] && ascend(used);
    (sound && dots(used).all(|dot| clock.sees(dot))).then_some(count)
}

/// Puts a dot in its place; there is room for it. Gives the number of dots.
#[inline(always)]
pub fn insert(block: &mut Block, count: usize, dot: Dot) -> usize {
    let Err(slot) = Tombstone::of(block, count).find(dot) else {
        return count;
    };
    let (at, end) = (slot * DOT_SIZE, count * DOT_SIZE);
    let room = block::tombstone_room_mut(block);
    room.copy_within(at..end, at + DOT_SIZE);
    room[at..at + DOT_SIZE].copy_from_slice(&dot.to_bytes());
    count + 1
}

/// Sets the dots' slots to 0.
pub fn clear(block: &mut Block, count: usize) {
    block::tombstone_room_mut(block)[..count * DOT_SIZE].fill(0);
}
