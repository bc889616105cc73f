//! The fields of a state stand in its block where `include/ptl.h` says, and the answers have the
//! numbers of the table.

use limits::{
    ACTOR_MAX, ANSWERS, DOT_SIZE, NAME_MAX, NUMBER_SIZE, ROW_SIZE, STATE_ACTOR_AT, STATE_CLOCK_AT,
    STATE_COUNT_AT, STATE_NAME_AT, STATE_NAME_LENGTH_AT, STATE_SIZE, STATE_TOMBSTONE_AT,
    STATE_USED_AT, TOMBSTONE_DOTS_MAX,
};
use ptl::{dots_of, Actor, Answer, Dot, State};

/// The block of a state after one change, and what the change gave.
fn changed<T>(change: impl Fn(&mut State) -> T) -> ([u8; STATE_SIZE], T) {
    let mut state = State::zero();
    let given = change(&mut state);
    (*state.block(), given)
}

/// A block of zeros but for these bytes at this place.
fn block(at: usize, bytes: &[u8]) -> [u8; STATE_SIZE] {
    let mut block = [0; STATE_SIZE];
    block[at..at + bytes.len()].copy_from_slice(bytes);
    block
}

const NUMBER: u64 = 0x0102_0304_0506_0708;
const BYTES: [u8; 8] = [1, 2, 3, 4, 5, 6, 7, 8];

#[test]
fn numbers_stand_in_their_places() {
    assert_eq!(
        changed(|s| s.set_actor(Actor(9))).0,
        block(STATE_ACTOR_AT, &[9])
    );
    let name_length = changed(|s| s.set_name_length(NUMBER)).0;
    assert_eq!(name_length, block(STATE_NAME_LENGTH_AT, &BYTES));
    let count = changed(|s| s.set_count(NUMBER)).0;
    assert_eq!(count, block(STATE_COUNT_AT, &BYTES));
    let used = changed(|s| s.set_used(NUMBER)).0;
    assert_eq!(used, block(STATE_USED_AT, &BYTES));
}

#[test]
fn rows_stand_in_their_places() {
    for actor in 1..=ACTOR_MAX {
        let at = STATE_CLOCK_AT + ROW_SIZE * (usize::from(actor) - 1);
        let base = changed(|s| s.set_base(Actor(actor), NUMBER));
        assert_eq!(base, (block(at, &BYTES), true));
        let window = changed(|s| s.set_window(Actor(actor), NUMBER));
        assert_eq!(window, (block(at + NUMBER_SIZE, &BYTES), true));
    }
    for actor in [0, ACTOR_MAX + 1, 255] {
        let none = (block(0, &[]), false);
        assert_eq!(changed(|s| s.set_base(Actor(actor), NUMBER)), none);
        assert_eq!(changed(|s| s.set_window(Actor(actor), NUMBER)), none);
        let state = State::of_block([7; STATE_SIZE]);
        assert_eq!(
            (state.base(Actor(actor)), state.window(Actor(actor))),
            (0, 0)
        );
    }
}

#[test]
fn slots_stand_in_their_places() {
    let dot = Dot::from((9, NUMBER));
    let bytes = [[9].as_slice(), &BYTES].concat();
    for slot in [0, 1, TOMBSTONE_DOTS_MAX - 1] {
        let set = changed(|s| s.set_slot(slot, dot));
        assert_eq!(
            set,
            (block(STATE_TOMBSTONE_AT + DOT_SIZE * slot, &bytes), true)
        );
        assert_eq!(State::of_block(set.0).slot(slot), Some(dot));
    }
    for slot in [TOMBSTONE_DOTS_MAX, usize::MAX] {
        assert_eq!(changed(|s| s.set_slot(slot, dot)), (block(0, &[]), false));
        assert_eq!(State::zero().slot(slot), None);
    }
}

#[test]
fn a_name_fills_up_with_zeros() {
    let mut state = State::of_block([0xFF; STATE_SIZE]);
    assert!(state.set_name(b"R1"));
    let rest = [0; NAME_MAX - 2];
    let front = [b"R1".as_slice(), &rest, &[0, 0, 0, 0, 0, 0, 0, 2]].concat();
    let block = state.block();
    assert_eq!(block[STATE_NAME_AT..STATE_CLOCK_AT], front);
    assert_eq!((block[STATE_ACTOR_AT], block[STATE_CLOCK_AT]), (0xFF, 0xFF));
    assert_eq!(state.name(), b"R1");
    assert!(!state.set_name(&[b'n'; NAME_MAX + 1]));
    assert_eq!(state.name(), b"R1");
}

#[test]
fn fields_that_say_too_much_are_read_as_far_as_they_go() {
    let state = State::of_block([0xFF; STATE_SIZE]);
    assert_eq!(state.name(), [0xFF; NAME_MAX]);
    assert_eq!(state.tombstone().len(), TOMBSTONE_DOTS_MAX);
    assert_eq!((state.count(), state.used()), (u64::MAX, u64::MAX));
    assert_eq!(
        dots_of(&[1, 0, 0, 0, 0, 0, 0, 0, 2, 3]),
        [Dot::from((1, 2))]
    );
}

#[test]
fn answers_have_their_numbers() {
    let words = |number| Answer::of_number(number).map(Answer::words);
    let all = [
        (0, "done"),
        (1, "the state is damaged, or the store is longer than 65536"),
        (3, "version other than 1"),
        (
            7,
            "message is for another set, or two controllers are of different sets",
        ),
        (9, "own add with the own base at the largest counter"),
        (
            10,
            "among all seen and offered dots together, one lies more than 64 above its actor's \
             unbroken run from 1",
        ),
        (11, "the tombstone would pass 128 dots"),
        (14, "an image's CRC is wrong"),
    ];
    for (number, expected) in all {
        assert_eq!(words(number).as_deref(), Some(expected));
    }
    assert_eq!(words(ANSWERS as u8), None);
    for (number, answer) in (0..).zip(Answer::ALL) {
        assert_eq!(
            (answer.number(), Answer::of_number(number)),
            (number, Some(answer))
        );
    }
    assert_eq!(
        Answer::NoMark.to_string(),
        "2: message or image under 5 bytes or wrong mark"
    );
}
