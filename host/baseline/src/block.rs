//! The fields of the block in which a state is lent. Numbers are highest byte first.

use limits::{
    NUMBER_SIZE, ROW_SIZE, STATE_ACTOR_AT, STATE_CLOCK_AT, STATE_COUNT_AT, STATE_NAME_AT,
    STATE_NAME_LENGTH_AT, STATE_SIZE, STATE_TOMBSTONE_AT, STATE_USED_AT,
};

/// A state, damaged or not.
pub type Block = [u8; STATE_SIZE];

pub fn actor(block: &Block) -> u8 {
    block[STATE_ACTOR_AT]
}

pub fn set_actor(block: &mut Block, actor: u8) {
    block[STATE_ACTOR_AT] = actor;
}

/// The bytes that the set name has room in.
pub fn name_room(block: &Block) -> &[u8] {
    &block[STATE_NAME_AT..STATE_NAME_LENGTH_AT]
}

pub fn name_length(block: &Block) -> u64 {
    number(block, STATE_NAME_LENGTH_AT)
}

/// Sets the name of a block that is zero throughout.
pub fn set_name(block: &mut Block, name: &[u8]) {
    block[STATE_NAME_AT..STATE_NAME_AT + name.len()].copy_from_slice(name);
    set_number(block, STATE_NAME_LENGTH_AT, name.len() as u64);
}

/// The bytes of the clock's rows: base, then window, for each actor.
pub fn clock_room(block: &Block) -> &[u8] {
    &block[STATE_CLOCK_AT..STATE_TOMBSTONE_AT]
}

/// Sets the bytes of the clock's rows.
pub fn set_clock(block: &mut Block, rows: &[u8]) {
    block[STATE_CLOCK_AT..STATE_TOMBSTONE_AT].copy_from_slice(rows);
}

/// Sets base and window of an actor that keeps its rule.
pub fn set_row(block: &mut Block, actor: u8, base: u64, window: u64) {
    let at = STATE_CLOCK_AT + ROW_SIZE * (usize::from(actor) - 1);
    set_number(block, at, base);
    set_number(block, at + NUMBER_SIZE, window);
}

/// The bytes of the tombstone's slots.
pub fn tombstone_room(block: &Block) -> &[u8] {
    &block[STATE_TOMBSTONE_AT..STATE_COUNT_AT]
}

pub fn tombstone_room_mut(block: &mut Block) -> &mut [u8] {
    &mut block[STATE_TOMBSTONE_AT..STATE_COUNT_AT]
}

/// The number of dots in the tombstone.
pub fn count(block: &Block) -> u64 {
    number(block, STATE_COUNT_AT)
}

pub fn set_count(block: &mut Block, count: usize) {
    set_number(block, STATE_COUNT_AT, count as u64);
}

/// The used length of the store.
pub fn used(block: &Block) -> u64 {
    number(block, STATE_USED_AT)
}

pub fn set_used(block: &mut Block, used: usize) {
    set_number(block, STATE_USED_AT, used as u64);
}

fn number(block: &Block, at: usize) -> u64 {
    let mut bytes = [0; NUMBER_SIZE];
    bytes.copy_from_slice(&block[at..at + NUMBER_SIZE]);
    u64::from_be_bytes(bytes)
}

fn set_number(block: &mut Block, at: usize, number: u64) {
    block[at..at + NUMBER_SIZE].copy_from_slice(&number.to_be_bytes());
}
