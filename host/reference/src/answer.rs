//! The answer numbers of the table "When a controller says no".

/// Done.
pub const DONE: u8 = 0;
/// The state is damaged, or the store is longer than `STORE_MAX`.
pub const DAMAGED: u8 = 1;
/// Message or image under 5 bytes or wrong mark.
pub const NO_MARK: u8 = 2;
/// Version other than 1.
pub const BAD_VERSION: u8 = 3;
/// A message or image of unknown kind, fields past its end, bytes left over; or no key.
pub const BAD_SHAPE: u8 = 4;
/// Set name, label, or an actor given to set-up or to a key, breaks its rule; in an image, set name
/// or writer's actor.
pub const BAD_NAME: u8 = 5;
/// A dot, a context or a key's counter breaks its rule, or an add's context has its own dot; or the
/// contents of an image would be a damaged state under the writer's actor.
pub const BAD_DOT: u8 = 6;
/// Message is for another set, or two controllers are of different sets.
pub const OTHER_SET: u8 = 7;
/// An offered own dot is above the own base.
pub const OWN_AHEAD: u8 = 8;
/// Own add with the own base at the largest counter.
pub const COUNTER_END: u8 = 9;
/// A dot lies more than `WINDOW` above its actor's unbroken run from 1.
pub const TOO_FAR: u8 = 10;
/// The tombstone would pass `TOMBSTONE_DOTS_MAX` dots.
pub const TOMBSTONE_FULL: u8 = 11;
/// A key must be stored and does not fit, or the keys of an image do not.
pub const STORE_FULL: u8 = 12;
/// The output buffer is shorter than what must be written.
pub const OUTPUT_SHORT: u8 = 13;
/// The CRC of an image is wrong.
pub const BAD_CHECKSUM: u8 = 14;
/// The actor of a box that loads an image is none, is the writer's, or has a row that is not empty.
pub const ACTOR_TAKEN: u8 = 15;
