//! Where labels end.

use super::{Tail, TAIL_ROOM};
use crate::form::Ends;
use crate::words::{first_mark, low_first, marks, WORD};
use limits::LABEL_MAX;

const _: () = assert!(
    LABEL_MAX == 4 * WORD,
    "the words of a label are counted here"
);

/// The label that was measured last. Neighbours often have labels of one length. Whether this one
/// has is a branch, which the processor predicts: it goes on to the next key before the search in
/// this one has ended.
#[derive(Clone, Copy)]
pub struct LastLabel {
    pub length: usize,
    /// The mark of its closing 00, in the word that has it.
    mark: u64,
    /// That bit and all below it: the bytes of the word up to the 00.
    up_to_mark: u64,
}

impl Default for LastLabel {
    /// None was measured, and none ends so.
    fn default() -> LastLabel {
        LastLabel {
            length: 0,
            mark: 1,
            up_to_mark: 0,
        }
    }
}

impl LastLabel {
    /// The label that ends in the word at this place, with the lowest of these marks.
    #[inline(always)]
    pub fn next(self, (at, marks): (usize, u64)) -> LastLabel {
        if marks & self.up_to_mark == self.mark && self.length ^ at < WORD {
            return self;
        }
        let up_to_mark = marks ^ marks.wrapping_sub(1);
        LastLabel {
            length: at + first_mark(marks),
            mark: marks & up_to_mark,
            up_to_mark,
        }
    }
}

/// The first word from a place on that has a 00: where it begins, and its marks. If a label would
/// be too long, there may be no mark.
#[inline(always)]
pub fn closing<const FROM: usize>(tail: &Tail) -> (usize, u64) {
    let mut at = FROM;
    while at < LABEL_MAX {
        let marks = marks(low_first(tail, at));
        if marks != 0 {
            return (at, marks);
        }
        at += WORD;
    }
    (LABEL_MAX, marks(low_first(tail, LABEL_MAX)))
}

/// The same for a tail with less than its room after it.
#[cold]
fn closing_at_end(tail: &[u8]) -> (usize, u64) {
    let mut with_zeros = [0; TAIL_ROOM];
    with_zeros[..tail.len()].copy_from_slice(tail);
    closing::<0>(&with_zeros)
}

impl Ends for LastLabel {
    #[inline(always)]
    fn length(&mut self, bytes: &[u8]) -> Option<usize> {
        let closing = match bytes.first_chunk() {
            Some(tail) => closing::<0>(tail),
            None => closing_at_end(bytes),
        };
        *self = self.next(closing);
        Some(self.length)
    }

    #[inline(always)]
    fn are_same(&self, tail: &[u8], other: &[u8], length: usize) -> bool {
        let differ = |at: usize| low_first(tail, at) ^ low_first(other, at);
        let last = length / WORD * WORD;
        let mut before = [0, WORD, 2 * WORD, 3 * WORD].into_iter();
        before.all(|at| at >= last || differ(at) == 0) && differ(last) & self.up_to_mark == 0
    }
}

#[cfg(test)]
mod tests {
    use super::*;

    /// Bytes that a search could take for a 00, or a 00 for them.
    const BYTES: [u8; 6] = [0x01, b'A', 0x7F, 0x80, 0x81, 0xFF];

    /// A label of this length at this place, with these bytes in it and after its 00.
    fn bytes(at: usize, length: usize, within: u8, after: u8) -> Vec<u8> {
        let mut bytes = vec![within; at + length];
        bytes.push(0);
        bytes.resize(at + length + 1 + TAIL_ROOM, after);
        bytes
    }

    #[test]
    fn every_length_is_found_at_every_place_after_every_other() {
        for (length, at) in (0..=LABEL_MAX).flat_map(|length| (0..WORD).map(move |at| (length, at)))
        {
            for (within, after) in BYTES.into_iter().flat_map(|one| [(one, one), (one, 0)]) {
                let bytes = bytes(at, length, within, after);
                for last in 0..=LABEL_MAX {
                    let mut label = LastLabel::default();
                    label.length(&self::bytes(0, last, within, after));
                    assert_eq!(label.length(&bytes[at..]), Some(length));
                    assert_eq!(label.length(&bytes[at..]), Some(length));
                }
            }
        }
    }

    #[test]
    fn every_length_is_found_with_any_number_of_bytes_after_it() {
        for length in 0..=LABEL_MAX {
            let bytes = bytes(0, length, 0x80, 1);
            for end in length + 1..=bytes.len() {
                assert_eq!(LastLabel::default().length(&bytes[..end]), Some(length));
            }
        }
    }

    #[test]
    fn a_label_that_is_too_long_is_told() {
        for (length, within) in
            (LABEL_MAX + 1..70).flat_map(|length| BYTES.map(|one| (length, one)))
        {
            let bytes = bytes(0, length, within, 0);
            for last in 0..=LABEL_MAX {
                let mut label = LastLabel::default();
                label.length(&self::bytes(0, last, within, 0));
                assert!(label.length(&bytes).is_none_or(|length| length > LABEL_MAX));
            }
        }
    }

    #[test]
    fn a_search_may_begin_after_bytes_that_are_known() {
        for length in 2 * WORD..=LABEL_MAX {
            let bytes = bytes(0, length, 0xFF, 0);
            let tail: &Tail = bytes.first_chunk().expect("its room");
            assert_eq!(closing::<{ 2 * WORD }>(tail), closing::<0>(tail));
        }
    }

    #[test]
    fn labels_are_the_same_up_to_their_00() {
        for length in 1..=LABEL_MAX {
            let one = bytes(0, length, b'A', 1);
            let mut label = LastLabel::default();
            label.length(&one);
            for at in 0..one.len() {
                let mut other = one.clone();
                other[at] ^= 0x80;
                assert_eq!(label.are_same(&other, &one, length), at > length);
            }
        }
    }
}
