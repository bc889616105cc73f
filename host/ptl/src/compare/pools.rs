//! Values that the rules draw a line at, and some on either side.

use super::random::Random;
use limits::{
    ACTORS, ACTOR_MAX, DOT_SIZE, LABEL_MAX, NAME_MAX, PRINT_MAX, PRINT_MIN, STORE_MAX,
    TOMBSTONE_DOTS_MAX, WINDOW,
};

/// Labels that print.
const LABELS: [&[u8]; 9] = [
    b"B7",
    b"B70",
    b"B8",
    b"B",
    b"A",
    &[PRINT_MIN],
    &[PRINT_MAX, PRINT_MAX],
    &[b'x'; LABEL_MAX - 1],
    &[PRINT_MAX; LABEL_MAX],
];
/// Labels within their rule that do not print: a store may hold them, no add may have them.
const UNPRINTED: [&[u8]; 9] = [
    b"\x01",
    &[PRINT_MIN - 1],
    &[PRINT_MIN - 1, b'B'],
    &[b'B', PRINT_MAX + 1],
    &[b'B', PRINT_MAX + 1, b'7'],
    b"\x80B7",
    b"B\xff7",
    b"\xff\xff",
    &[0xff; LABEL_MAX],
];
const BAD_LABELS: [&[u8]; 7] = bad(&[b'x'; LABEL_MAX + 1]);

const NAMES: [&[u8]; 5] = [b"R1", b"R", b"R12", b"\xff", &[b'n'; NAME_MAX]];
const BAD_NAMES: [&[u8]; 7] = bad(&[b'n'; NAME_MAX + 1]);

/// What no name and no label may be, with one that is too long.
const fn bad(long: &[u8]) -> [&[u8]; 7] {
    [b"", long, b"\0", b"\x00R", b"R\x001", b"R1\0", &[b'y'; 255]]
}

const NAME: u64 = NAME_MAX as u64;
const LABEL: u64 = LABEL_MAX as u64;
const TOMBSTONE: u64 = TOMBSTONE_DOTS_MAX as u64;
const STORE: u64 = STORE_MAX as u64;

/// Numbers at which a width, a size or a rule ends.
const NUMBERS: [u64; 32] = [
    0,
    1,
    2,
    3,
    NAME - 1,
    NAME,
    NAME + 1,
    LABEL - 1,
    LABEL,
    LABEL + 1,
    WINDOW - 1,
    WINDOW,
    WINDOW + 1,
    WINDOW + 2,
    TOMBSTONE - 1,
    TOMBSTONE,
    TOMBSTONE + 1,
    TOMBSTONE + 2,
    255,
    256,
    STORE - 1,
    STORE,
    STORE + 1,
    u32::MAX as u64,
    1 << 32,
    i64::MAX as u64,
    1 << 63,
    u64::MAX / DOT_SIZE as u64 + 1,
    u64::MAX - WINDOW,
    u64::MAX - WINDOW + 1,
    u64::MAX - 1,
    u64::MAX,
];

/// A label that prints.
pub fn label(random: &mut Random) -> Vec<u8> {
    if random.chance(80) {
        return random.pick(&LABELS).to_vec();
    }
    let length = random.between(1, LABEL_MAX);
    (0..length).map(|_| random.pick(b"B7a ")).collect()
}

/// A label within its rule that does not print: one byte of it, or each is any.
fn unprinted(random: &mut Random) -> Vec<u8> {
    let mut label = label(random);
    let at = random.below(label.len());
    match random.below(10) {
        0..=4 => return random.pick(&UNPRINTED).to_vec(),
        5..=8 => (),
        _ => label.fill_with(|| random.between(1, 255) as u8),
    }
    label[at] = random.pick(&[1, PRINT_MIN - 1, PRINT_MAX + 1, 0x80, 0xff]);
    label
}

/// Whether a label keeps its rule and does not print.
pub fn is_unprinted(label: &[u8]) -> bool {
    let prints = |byte: &u8| (PRINT_MIN..=PRINT_MAX).contains(byte);
    (1..=LABEL_MAX).contains(&label.len()) && !label.contains(&0) && !label.iter().all(prints)
}

/// A label that a store may hold.
pub fn stored_label(random: &mut Random) -> Vec<u8> {
    match random.chance(20) {
        true => unprinted(random),
        false => label(random),
    }
}

/// A label that may break its rule, or not print.
pub fn any_label(random: &mut Random) -> Vec<u8> {
    match random.below(100) {
        0..=5 => random.pick(&BAD_LABELS).to_vec(),
        6..=10 => unprinted(random),
        _ => label(random),
    }
}

/// A set name that keeps its rule.
pub fn name(random: &mut Random) -> Vec<u8> {
    match random.chance(60) {
        true => NAMES[0].to_vec(),
        false => random.pick(&NAMES).to_vec(),
    }
}

/// A set name that may break its rule.
pub fn any_name(random: &mut Random) -> Vec<u8> {
    match random.chance(15) {
        true => random.pick(&BAD_NAMES).to_vec(),
        false => name(random),
    }
}

/// An actor that keeps its rule.
pub fn actor(random: &mut Random) -> u8 {
    match random.chance(40) {
        true => random.pick(&[1, 2, 3, ACTOR_MAX]),
        false => random.between(1, ACTORS) as u8,
    }
}

/// An actor that may break its rule.
pub fn any_actor(random: &mut Random) -> u8 {
    match random.chance(10) {
        true => random.pick(&[0, ACTOR_MAX + 1, ACTOR_MAX + 2, 255]),
        false => actor(random),
    }
}

/// A number of any size, likely one at which something ends.
pub fn number(random: &mut Random) -> u64 {
    match random.chance(80) {
        true => random.pick(&NUMBERS),
        false => random.next() >> random.below(u64::BITS as usize),
    }
}

/// A number near another, or any number.
pub fn number_near(random: &mut Random, near: u64) -> u64 {
    match random.below(6) {
        0 => near.wrapping_add(1),
        1 => near.wrapping_sub(1),
        2 => near
            .wrapping_add(random.next() % (2 * WINDOW + 2))
            .wrapping_sub(WINDOW + 1),
        3 | 4 => near ^ 1 << random.below(u64::BITS as usize),
        _ => number(random),
    }
}

/// The length of an output that needs so many bytes: ample, exact, one short or any other.
pub fn out(random: &mut Random, need: usize) -> usize {
    match random.below(20) {
        0 | 1 => need.saturating_sub(1),
        2 | 3 => need,
        4 => need + 1,
        5 => random.below(need + 1),
        6 => 0,
        _ => need + 90,
    }
}
