//! A controller's state as the block in which it crosses to the library. Every block is a state,
//! damaged or not, so each field can be read and set to anything.

use crate::kinds::{Actor, Dot};
use limits::{
    ACTORS, ACTOR_MAX, DOT_SIZE, NAME_MAX, NUMBER_SIZE, ROW_SIZE, STATE_ACTOR_AT, STATE_CLOCK_AT,
    STATE_COUNT_AT, STATE_NAME_AT, STATE_NAME_LENGTH_AT, STATE_SIZE, STATE_TOMBSTONE_AT,
    STATE_USED_AT, TOMBSTONE_DOTS_MAX,
};
use std::fmt;

/// A state, apart from the store that is lent with it.
#[derive(Clone, PartialEq, Eq)]
pub struct State {
    block: [u8; STATE_SIZE],
}

impl State {
    /// Zero throughout, as a refused set-up gives it: a damaged state.
    pub fn zero() -> State {
        State::of_block([0; STATE_SIZE])
    }

    pub fn of_block(block: [u8; STATE_SIZE]) -> State {
        State { block }
    }

    pub fn block(&self) -> &[u8; STATE_SIZE] {
        &self.block
    }

    pub fn block_mut(&mut self) -> &mut [u8; STATE_SIZE] {
        &mut self.block
    }

    pub fn actor(&self) -> Actor {
        Actor(self.block[STATE_ACTOR_AT])
    }

    /// The bytes that the set name has room in, used or not.
    pub fn name_room(&self) -> &[u8] {
        &self.block[STATE_NAME_AT..STATE_NAME_LENGTH_AT]
    }

    pub fn name_length(&self) -> u64 {
        self.number(STATE_NAME_LENGTH_AT)
    }

    /// The set name: as many bytes as its length says and there are.
    pub fn name(&self) -> &[u8] {
        &self.name_room()[..least(self.name_length(), NAME_MAX)]
    }

    /// The base of an actor's row; 0 for an actor that has none.
    pub fn base(&self, actor: Actor) -> u64 {
        row_at(actor).map_or(0, |at| self.number(at))
    }

    /// The window of an actor's row; 0 for an actor that has none.
    pub fn window(&self, actor: Actor) -> u64 {
        row_at(actor).map_or(0, |at| self.number(at + NUMBER_SIZE))
    }

    /// A slot of the tombstone, used or not.
    pub fn slot(&self, slot: usize) -> Option<Dot> {
        let bytes = self.block.get(slot_at(slot)?..)?.first_chunk()?;
        Some(Dot::of_bytes(*bytes))
    }

    /// The number of dots in the tombstone, as it stands.
    pub fn count(&self) -> u64 {
        self.number(STATE_COUNT_AT)
    }

    /// The dots of the tombstone: as many as their number says and there are.
    pub fn tombstone(&self) -> Vec<Dot> {
        let slots = 0..least(self.count(), TOMBSTONE_DOTS_MAX);
        slots.filter_map(|slot| self.slot(slot)).collect()
    }

    /// The bytes of all slots of the tombstone, used or not.
    pub fn tombstone_room(&self) -> &[u8] {
        &self.block[STATE_TOMBSTONE_AT..STATE_COUNT_AT]
    }

    /// The used length of the store.
    pub fn used(&self) -> u64 {
        self.number(STATE_USED_AT)
    }

    pub fn set_actor(&mut self, actor: Actor) {
        self.block[STATE_ACTOR_AT] = actor.0;
    }

    /// Sets name bytes and length and fills up with zeros. False if the name is too long.
    pub fn set_name(&mut self, name: &[u8]) -> bool {
        let fits = name.len() <= NAME_MAX;
        if fits {
            self.block[STATE_NAME_AT..STATE_NAME_LENGTH_AT].fill(0);
            self.block[STATE_NAME_AT..STATE_NAME_AT + name.len()].copy_from_slice(name);
            self.set_name_length(name.len() as u64);
        }
        fits
    }

    pub fn set_name_length(&mut self, length: u64) {
        self.set_number(STATE_NAME_LENGTH_AT, length);
    }

    /// False if the actor has no row.
    pub fn set_base(&mut self, actor: Actor, base: u64) -> bool {
        let at = row_at(actor);
        at.map(|at| self.set_number(at, base)).is_some()
    }

    /// False if the actor has no row.
    pub fn set_window(&mut self, actor: Actor, window: u64) -> bool {
        let at = row_at(actor);
        at.map(|at| self.set_number(at + NUMBER_SIZE, window))
            .is_some()
    }

    /// False if there is no such slot.
    pub fn set_slot(&mut self, slot: usize, dot: Dot) -> bool {
        let at = slot_at(slot);
        at.map(|at| self.block[at..at + DOT_SIZE].copy_from_slice(&dot.to_bytes()))
            .is_some()
    }

    pub fn set_count(&mut self, count: u64) {
        self.set_number(STATE_COUNT_AT, count);
    }

    pub fn set_used(&mut self, used: u64) {
        self.set_number(STATE_USED_AT, used);
    }

    fn number(&self, at: usize) -> u64 {
        let bytes = self.block[at..].first_chunk();
        bytes.map_or(0, |bytes| u64::from_be_bytes(*bytes))
    }

    fn set_number(&mut self, at: usize, number: u64) {
        self.block[at..at + NUMBER_SIZE].copy_from_slice(&number.to_be_bytes());
    }
}

/// Where an actor's row stands: base, then window.
fn row_at(actor: Actor) -> Option<usize> {
    let row = usize::from(actor.0).checked_sub(1)?;
    (row < ACTORS).then_some(STATE_CLOCK_AT + ROW_SIZE * row)
}

fn slot_at(slot: usize) -> Option<usize> {
    (slot < TOMBSTONE_DOTS_MAX).then(|| STATE_TOMBSTONE_AT + DOT_SIZE * slot)
}

/// The smaller of a number that may be anything and a size.
fn least(number: u64, size: usize) -> usize {
    usize::try_from(number).map_or(size, |number| number.min(size))
}

/// The fields, without rows that are zero and slots past the tombstone's dots.
impl fmt::Debug for State {
    fn fmt(&self, f: &mut fmt::Formatter<'_>) -> fmt::Result {
        let rows = (1..=ACTOR_MAX).map(Actor);
        let rows = rows.map(|actor| (actor.0, self.base(actor), self.window(actor)));
        let rows: Vec<_> = rows.filter(|row| (row.1, row.2) != (0, 0)).collect();
        let name = self.name_room().escape_ascii().to_string();
        f.debug_struct("State")
            .field("actor", &self.actor().0)
            .field("name", &name)
            .field("name_length", &self.name_length())
            .field("rows", &rows)
            .field("tombstone", &self.tombstone())
            .field("count", &self.count())
            .field("used", &self.used())
            .finish()
    }
}
