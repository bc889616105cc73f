//! The answer numbers of the table "When a controller says no".

pub const DONE: u8 = 0;
pub const DAMAGED: u8 = 1;
pub const NO_MARK: u8 = 2;
pub const BAD_VERSION: u8 = 3;
pub const BAD_SHAPE: u8 = 4;
pub const BAD_NAME: u8 = 5;
pub const BAD_DOT: u8 = 6;
pub const OTHER_SET: u8 = 7;
pub const OWN_AHEAD: u8 = 8;
pub const COUNTER_END: u8 = 9;
pub const TOO_FAR: u8 = 10;
pub const TOMBSTONE_FULL: u8 = 11;
pub const STORE_FULL: u8 = 12;
pub const OUTPUT_SHORT: u8 = 13;
pub const BAD_CHECKSUM: u8 = 14;
pub const ACTOR_TAKEN: u8 = 15;
