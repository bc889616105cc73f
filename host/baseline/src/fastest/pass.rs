//! The pass over the store: judges it, and finds the place of a label on the way.

use super::bounds::Bounds;
use super::label::{closing, LastLabel};
use super::window::{End, Window, PREFIX_ROOM, WINDOW};
use super::{Tail, TAIL_ROOM};
use crate::clock::Clock;
use crate::dot::Dot;
use crate::keys::PREFIX_MIN;
use crate::words::{high_first, low_first, piece, WORD};
use limits::{ACTOR_MAX, KEY_END, LABEL_MAX};

/// Bytes at the front of a tail that are compared as one number.
const START: usize = 16;
// The shortest tail is shorter: the rest is of the prefix after it, and the same after every tail.
const _: () = assert!(1 + KEY_END + PREFIX_MIN >= START);
// A tail has three words after its start, and fewer bytes than a word after these.
const _: () = assert!(START + 4 * WORD == TAIL_ROOM);

/// Judges a store, and says where the keys of a label begin and end.
pub fn judge(used: &[u8], prefix: &[u8], clock: &Clock, label: &[u8]) -> Option<(usize, usize)> {
    if used.is_empty() {
        return Some((0, 0));
    }
    let from_label = used.strip_prefix(prefix)?;
    let end = End::new(from_label, prefix);
    let judge = Judge {
        prefix: PrefixWords::new(prefix),
        step: prefix.len() + KEY_END,
        clock,
    };
    let mut bounds = Bounds::new(label, used.len());
    let last = judge.keys(from_label, Before::none(), &mut bounds)?;
    judge.keys(end.keys(last.next), last, &mut bounds)?;
    Some(bounds.stretch())
}

/// What every key is held to.
struct Judge<'a> {
    prefix: PrefixWords,
    /// Bytes of a key beside its label.
    step: usize,
    clock: &'a Clock,
}

impl Judge<'_> {
    /// Judges the keys in these bytes, as far as there are whole windows. They begin with a label.
    #[inline(never)]
    fn keys<'a>(
        &self,
        keys: &'a [u8],
        before: Before<'a>,
        bounds: &mut Bounds,
    ) -> Option<Before<'a>> {
        let step = self.step.min(WINDOW - LABEL_MAX);
        let first = before.next;
        let (mut before, mut rest) = (before, keys);
        while let Some(window) = rest.first_chunk() {
            before.next = first + keys.len() - rest.len();
            let length = self.key(window, &mut before, bounds)?;
            rest = &rest[step..][length..];
        }
        before.next = first + keys.len() - rest.len();
        Some(before)
    }

    /// Judges the key whose label is at the front of a window, and the prefix after it: the length
    /// of the label.
    #[inline(always)]
    fn key<'a>(
        &self,
        window: &'a Window,
        before: &mut Before<'a>,
        bounds: &mut Bounds,
    ) -> Option<usize> {
        let tail: &Tail = window.first_chunk()?;
        let start = u128::from_be_bytes(piece(tail, 0));
        let closing = match before.start < start {
            true => {
                bounds.meet(tail, before.next);
                closing::<0>(tail)
            }
            false => before.closing_alike(tail, start, bounds)?,
        };
        before.label = before.label.next(closing);
        before.tail = tail;
        before.start = start;
        let length = before.label.length;
        let sound = length <= LABEL_MAX
            && self.prefix.stands_at(window, length + KEY_END)
            && has_seen_dot(tail, length, self.clock);
        sound.then_some(length)
    }
}

/// What is known of the key before.
#[derive(Clone, Copy)]
struct Before<'a> {
    tail: &'a Tail,
    /// The first bytes of the tail.
    start: u128,
    label: LastLabel,
    /// Where the key after it begins.
    next: usize,
}

impl Before<'_> {
    /// Below every key whose label is not empty.
    fn none() -> Before<'static> {
        const LOWEST: &Tail = &{
            let mut tail = [0xFF; TAIL_ROOM];
            tail[0] = 0;
            tail
        };
        Before {
            tail: LOWEST,
            start: u128::from_be_bytes(piece(LOWEST, 0)),
            label: LastLabel::default(),
            next: 0,
        }
    }

    /// The word that has the closing 00 of a tail that is not above by its start. None if it is
    /// not above at all.
    #[inline(always)]
    fn closing_alike(&self, tail: &Tail, start: u128, bounds: &mut Bounds) -> Option<(usize, u64)> {
        if self.start > start {
            return None;
        }
        let differs = difference_after_start(self.tail, tail, self.label.length)?;
        if high_first(self.tail, differs) > high_first(tail, differs) {
            return None;
        }
        bounds.meet_alike(tail, differs, self.next);
        Some(match self.label.length < START {
            true => closing::<0>(tail),
            false => closing::<START>(tail),
        })
    }
}

/// The first word in which two tails with the same start differ: one that begins in its turn, or
/// the last of the first tail, which has a label of this length.
#[inline(always)]
fn difference_after_start(one: &Tail, other: &Tail, length: usize) -> Option<usize> {
    let last = (length + KEY_END - WORD).min(TAIL_ROOM - WORD);
    let differs = |at: &usize| low_first(one, *at) != low_first(other, *at);
    let words = [START, START + WORD, START + 2 * WORD];
    let before_last = words.into_iter().take_while(|at| *at < last);
    { before_last }
        .find(differs)
        .or_else(|| Some(last).filter(differs))
}

/// Whether a key with a label of this length has a dot that keeps its rule and is seen.
#[inline(always)]
fn has_seen_dot(tail: &Tail, length: usize, clock: &Clock) -> bool {
    // A 00 follows the actor: the two are one number.
    let actor = u16::from_le_bytes(piece(tail, length + 1));
    if !(1..=u16::from(ACTOR_MAX)).contains(&actor) {
        return false;
    }
    let actor = actor as u8;
    let counter = high_first(tail, length + 3);
    counter.wrapping_sub(1) < clock.row(actor).base || is_in_window(Dot { actor, counter }, clock)
}

/// The same of a dot that is 0 or above the base.
#[inline(always)]
fn is_in_window(dot: Dot, clock: &Clock) -> bool {
    dot.keeps_rule() && clock.sees(dot)
}

/// A prefix in words, and which of their bytes count.
struct PrefixWords {
    words: [u64; PREFIX_ROOM / WORD],
    masks: [u64; PREFIX_ROOM / WORD],
    is_long: bool,
}

impl PrefixWords {
    fn new(prefix: &[u8]) -> PrefixWords {
        let (mut bytes, mut masks) = ([0; PREFIX_ROOM], [0; PREFIX_ROOM]);
        bytes[..prefix.len()].copy_from_slice(prefix);
        masks[..prefix.len()].fill(0xFF);
        let words = |bytes: [u8; PREFIX_ROOM]| [0, 1, 2].map(|word| low_first(&bytes, WORD * word));
        PrefixWords {
            words: words(bytes),
            masks: words(masks),
            is_long: prefix.len() > WORD,
        }
    }

    /// Whether the prefix stands at this place.
    #[inline(always)]
    fn stands_at(&self, window: &Window, at: usize) -> bool {
        let differs = |word: usize| {
            (low_first(window, at + WORD * word) ^ self.words[word]) & self.masks[word]
        };
        match self.is_long {
            false => differs(0) == 0,
            true => differs(0) | differs(1) | differs(2) == 0,
        }
    }
}
