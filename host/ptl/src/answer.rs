//! The answers of the table "When a controller says no", with their numbers and words.

use limits::{ANSWERS, STORE_MAX, TOMBSTONE_DOTS_MAX, WINDOW};
use std::fmt;

/// What a call answers. `Done` is 0; every other one is a refusal, which changes nothing (one of a
/// set-up or a load leaves a state of zeros).
#[derive(Clone, Copy, PartialEq, Eq, PartialOrd, Ord, Hash, Debug)]
#[repr(u8)]
pub enum Answer {
    Done = 0,
    Damaged = 1,
    NoMark = 2,
    BadVersion = 3,
    BadShape = 4,
    BadName = 5,
    BadDot = 6,
    OtherSet = 7,
    OwnAhead = 8,
    CounterEnd = 9,
    TooFar = 10,
    TombstoneFull = 11,
    StoreFull = 12,
    OutputShort = 13,
    BadChecksum = 14,
    ActorTaken = 15,
}

/// When each answer is given; `#` stands for the limit that the answer speaks of.
const WORDS: [&str; ANSWERS] = [
    "done",
    "the state is damaged, or the store is longer than #",
    "message or image under 5 bytes or wrong mark",
    "version other than 1",
    "a message's or image's kind is unknown, its fields run past the end or bytes are left over; \
     or bytes given as a key are none",
    "set name, label, or an actor given to set-up or to a key, breaks its rule; or the label of \
     an add does not print; or an image's set name or writer's actor breaks its rule",
    "a dot, a context or a key's counter breaks its rule, or an add's context has its own dot; or \
     what else is in an image would be a damaged state",
    "message is for another set, or two controllers are of different sets",
    "an offered dot of this controller's own actor, but for the one an own add takes, is above \
     its own base",
    "own add with the own base at the largest counter",
    "among all seen and offered dots together, one lies more than # above its actor's unbroken \
     run from 1",
    "the tombstone would pass # dots",
    "a key must be stored and used length + key length exceeds the store; or an image's used \
     length does",
    "the output buffer is shorter than what must be written",
    "an image's CRC is wrong",
    "the actor that is to load an image is none, is the writer's, or has a row that is not empty",
];

impl Answer {
    /// All answers, each at its number.
    pub const ALL: [Answer; ANSWERS] = [
        Answer::Done,
        Answer::Damaged,
        Answer::NoMark,
        Answer::BadVersion,
        Answer::BadShape,
        Answer::BadName,
        Answer::BadDot,
        Answer::OtherSet,
        Answer::OwnAhead,
        Answer::CounterEnd,
        Answer::TooFar,
        Answer::TombstoneFull,
        Answer::StoreFull,
        Answer::OutputShort,
        Answer::BadChecksum,
        Answer::ActorTaken,
    ];

    /// The answer of this number, if there is one.
    pub fn of_number(number: u8) -> Option<Answer> {
        Answer::ALL.get(usize::from(number)).copied()
    }

    pub fn number(self) -> u8 {
        self as u8
    }

    /// When the answer is given, in the table's words.
    pub fn words(self) -> String {
        let limit = match self {
            Answer::Damaged => STORE_MAX,
            Answer::TooFar => WINDOW as usize,
            Answer::TombstoneFull => TOMBSTONE_DOTS_MAX,
            _ => 0,
        };
        WORDS[usize::from(self.number())].replace('#', &limit.to_string())
    }

    /// What was asked for if the answer is `Done`, else the refusal.
    pub(crate) fn give<T>(number: u8, asked: impl FnOnce() -> T) -> Result<T, Answer> {
        // The library gives no number outside the table; one would count as a refusal.
        match Answer::of_number(number).unwrap_or(Answer::Damaged) {
            Answer::Done => Ok(asked()),
            refusal => Err(refusal),
        }
    }
}

impl fmt::Display for Answer {
    fn fmt(&self, f: &mut fmt::Formatter<'_>) -> fmt::Result {
        write!(f, "{}: {}", self.number(), self.words())
    }
}

impl std::error::Error for Answer {}
