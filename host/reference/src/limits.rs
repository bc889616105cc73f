//! The limits of the rules and the sizes of the formats, taken from documents 01 and 02 alone: each is
//! said once, and derived from those that it is made of. A test of `ptl` compares them with the
//! product's.

/// The largest actor; the smallest is 1.
pub const ACTOR_MAX: u8 = 16;
/// The longest set name.
pub const NAME_MAX: usize = 16;
/// The longest label.
pub const LABEL_MAX: usize = 32;
/// The lowest and the highest byte of a label that an add may have.
pub const PRINT_MIN: u8 = 0x20;
pub const PRINT_MAX: u8 = 0x7E;
/// The most dots in a context.
pub const CONTEXT_DOTS_MAX: usize = 64;
/// The most dots in the tombstone.
pub const TOMBSTONE_DOTS_MAX: usize = 128;
/// The longest store.
pub const STORE_MAX: usize = 65_536;
/// How far above the unbroken run a window reaches.
pub const WINDOW: u128 = 64;
/// The number of answers, which are 0 and up.
pub const ANSWERS: usize = 16;
/// The largest counter.
pub const COUNTER_MAX: u128 = u64::MAX as u128;

/// Bytes of a counter.
pub const COUNTER_SIZE: usize = 8;
/// Bytes of a dot: actor and counter.
pub const DOT_SIZE: usize = 1 + COUNTER_SIZE;
/// Bytes of the tombstone: room for the most dots.
pub const TOMBSTONE_SIZE: usize = TOMBSTONE_DOTS_MAX * DOT_SIZE;

/// Words of a row of the clock: base and window.
pub const ROW_WORDS: usize = 2;
/// Words of the clock: a row for each actor.
pub const CLOCK_WORDS: usize = ROW_WORDS * ACTOR_MAX as usize;

/// Bytes of a key before its label, but for the name: magic, version, 00, type.
pub const KEY_START: usize = 4;
/// Bytes of a label key after its label: 00, actor, 00, counter.
pub const KEY_END: usize = 3 + COUNTER_SIZE;
/// Bytes of a label key beside its name and its label.
pub const KEY_FIXED: usize = KEY_START + KEY_END;
