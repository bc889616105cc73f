//! Limits of the rules, sizes of the formats and places in a state block: each is said once, and
//! derived from those that it is made of.
//!
//! Those in `listed!` stand in `include/ptl.h` too, as macros PTL_ and the same name; the test
//! `ptl/tests/limits.rs` compares all of them. The others are parts that only programs here need.
#![no_std]
#![forbid(unsafe_code)]

/// Defines constants, and `HEADER`, the list of their names and values.
macro_rules! listed {
    ($($(#[$doc:meta])* $name:ident: $kind:ty = $value:expr;)*) => {
        $($(#[$doc])* pub const $name: $kind = $value;)*
        /// All constants that the header has too.
        pub const HEADER: &[(&str, u64)] = &[$((stringify!($name), $name as u64)),*];
    };
}

listed! {
    /// The largest actor; the smallest is 1.
    ACTOR_MAX: u8 = 16;
    /// The longest set name.
    NAME_MAX: usize = 16;
    /// The longest label.
    LABEL_MAX: usize = 32;
    /// The lowest and the highest byte of a label that an add may have.
    PRINT_MIN: u8 = 0x20;
    PRINT_MAX: u8 = 0x7E;
    /// The most dots in a context.
    CONTEXT_DOTS_MAX: usize = 64;
    /// The most dots in the tombstone.
    TOMBSTONE_DOTS_MAX: usize = 128;
    /// The longest store.
    STORE_MAX: usize = 65_536;
    /// How far above its base a row of the clock reaches: the bits of its window.
    WINDOW: u64 = 64;
    /// The number of answers, which are 0 and up.
    ANSWERS: usize = 16;

    /// Bytes of a number: a counter, a base, a length or a number of dots.
    NUMBER_SIZE: usize = 8;
    /// Bytes of a dot: its actor and its counter.
    DOT_SIZE: usize = 1 + NUMBER_SIZE;
    /// The longest context.
    CONTEXT_MAX: usize = CONTEXT_DOTS_MAX * DOT_SIZE;
    /// Bytes of a label key beside its name and its label.
    KEY_FIXED: usize = KEY_FRONT + KEY_MIDDLE + KEY_END;
    /// The longest key, a label key.
    KEY_MAX: usize = NAME_MAX + LABEL_MAX + KEY_FIXED;
    /// The longest message, an add.
    MESSAGE_MAX: usize = MESSAGE_HEAD + NAME_MAX + 1 + LABEL_MAX + DOT_SIZE + 1 + CONTEXT_MAX;

    /// Bytes of a row of the clock: its base and its window.
    ROW_SIZE: usize = NUMBER_SIZE + WINDOW as usize / 8;
    /// Bytes of the clock: a row for each actor.
    CLOCK_SIZE: usize = ACTORS * ROW_SIZE;
    /// Bytes of the tombstone: room for the most dots.
    TOMBSTONE_SIZE: usize = TOMBSTONE_DOTS_MAX * DOT_SIZE;
    /// The longest image.
    IMAGE_MAX: usize = IMAGE_FIXED + NAME_MAX + TOMBSTONE_SIZE + STORE_MAX;

    /// Where the fields of a state block begin.
    STATE_ACTOR_AT: usize = 0;
    STATE_NAME_AT: usize = STATE_ACTOR_AT + 1;
    STATE_NAME_LENGTH_AT: usize = STATE_NAME_AT + NAME_MAX;
    STATE_CLOCK_AT: usize = STATE_NAME_LENGTH_AT + NUMBER_SIZE;
    STATE_TOMBSTONE_AT: usize = STATE_CLOCK_AT + CLOCK_SIZE;
    STATE_COUNT_AT: usize = STATE_TOMBSTONE_AT + TOMBSTONE_SIZE;
    STATE_USED_AT: usize = STATE_COUNT_AT + NUMBER_SIZE;
    /// Bytes of a state block.
    STATE_SIZE: usize = STATE_USED_AT + NUMBER_SIZE;
}

/// The number of actors.
pub const ACTORS: usize = ACTOR_MAX as usize;

/// Bytes of a key before its name: magic and version.
pub const KEY_FRONT: usize = 2;
/// Bytes of a key between its name and its label: 00 and type.
pub const KEY_MIDDLE: usize = 2;
/// Bytes of a label key after its label: 00, actor, 00, counter.
pub const KEY_END: usize = 3 + NUMBER_SIZE;

/// Bytes of a message before its kind: mark and version.
pub const MESSAGE_FRONT: usize = 5;
/// Bytes of a message before its name: mark, version, kind and the name's length.
pub const MESSAGE_HEAD: usize = MESSAGE_FRONT + 2;

/// Bytes of the used length in an image, and of the CRC at its end.
pub const IMAGE_USED_SIZE: usize = 4;
pub const CRC_SIZE: usize = 4;
/// Bytes of an image beside its name, its dots and its keys: mark, version, kind, the name's length,
/// the writer's actor, the clock, the number of dots, the used length and the CRC.
pub const IMAGE_FIXED: usize = MESSAGE_HEAD + 1 + CLOCK_SIZE + 1 + IMAGE_USED_SIZE + CRC_SIZE;

/// Bytes of the number of a label's dots in a listing.
pub const DOT_COUNT_SIZE: usize = 2;
/// Bytes of a listed label beside the label itself and its dots: its length and their number.
pub const LINE_FIXED: usize = 1 + DOT_COUNT_SIZE;

/// The length of a label key.
pub const fn label_key_size(name: usize, label: usize) -> usize {
    name + label + KEY_FIXED
}
