//! The listing, written key by key.

use super::filter::Filter;
use super::label::{closing, LastLabel};
use super::window::{End, WINDOW};
use super::{Tail, TAIL_ROOM};
use crate::dot::Dot;
use crate::form::{Dead, Ends};
use crate::words::{high_first, piece, WORD};
use limits::{DOT_COUNT_SIZE, DOT_SIZE, KEY_END, LABEL_MAX};

/// Writes the listing of a sound store, for which there is room: its length and its number of
/// labels.
pub fn write(used: &[u8], prefix: usize, dead: &Filter, out: &mut [u8]) -> (usize, usize) {
    let Some((prefix, from_label)) = used.split_at_checked(prefix) else {
        return (0, 0);
    };
    let end = End::new(from_label, prefix);
    let step = prefix.len() + KEY_END;
    let most = write_keys(from_label, step, dead, Written::default(), out);
    let all = write_keys(end.keys(most.next), step, dead, most, out);
    (all.length, all.labels)
}

/// What is written, and what is known of the last key.
#[derive(Clone, Copy)]
struct Written<'a> {
    length: usize,
    labels: usize,
    /// The tail of the last key that is listed, the number of its label's dots so far, and where
    /// that is written.
    tail: &'a Tail,
    dots: u16,
    dots_at: usize,
    /// The label of the last key, listed or not, and where the next key begins.
    last: LastLabel,
    next: usize,
}

impl Default for Written<'_> {
    fn default() -> Written<'static> {
        Written {
            length: 0,
            labels: 0,
            tail: &[0; TAIL_ROOM],
            dots: 0,
            dots_at: 0,
            last: LastLabel::default(),
            next: 0,
        }
    }
}

/// Writes what is listed of these keys, as far as there are whole windows. They begin with a label.
#[inline(never)]
fn write_keys<'a>(
    keys: &'a [u8],
    step: usize,
    dead: &Filter,
    before: Written<'a>,
    out: &mut [u8],
) -> Written<'a> {
    let (mut written, mut rest) = (before, keys);
    while let Some(window) = rest.first_chunk::<WINDOW>() {
        let Some(tail) = window.first_chunk() else {
            break;
        };
        written.last = written.last.next(closing::<0>(tail));
        let length = written.last.length;
        if length > LABEL_MAX {
            break;
        }
        let actor = tail[length + 1];
        let counter = high_first(tail, length + 3);
        let dot = Dot { actor, counter };
        if !dead.has(dot) {
            written.write_key(tail, length, dot, out);
        }
        rest = rest.get(step + length..).unwrap_or_default();
    }
    written.next = before.next + keys.len() - rest.len();
    written
}

impl<'a> Written<'a> {
    /// Writes the dot of a key, and before it the label if it is another one.
    #[inline(always)]
    fn write_key(&mut self, tail: &'a Tail, length: usize, dot: Dot, out: &mut [u8]) {
        if !self.last.are_same(self.tail, tail, length) {
            write_label(tail, length, &mut out[self.length..]);
            self.labels += 1;
            self.dots = 0;
            self.dots_at = self.length + 1 + length;
            self.length = self.dots_at + DOT_COUNT_SIZE;
        }
        self.tail = tail;
        self.dots += 1;
        put(self.dots.to_be_bytes(), self.dots_at, out);
        put(dot.to_bytes(), self.length, out);
        self.length += DOT_SIZE;
    }
}

/// Writes the length of a label and its words. What comes after the label in its last word is
/// written over by the number of its dots and by the first of them.
#[inline(always)]
fn write_label(tail: &Tail, length: usize, out: &mut [u8]) {
    const _: () = assert!(WORD <= DOT_COUNT_SIZE + DOT_SIZE);
    put([length as u8], 0, out);
    for at in [0, WORD, 2 * WORD, 3 * WORD] {
        if at < length {
            put(piece::<WORD>(tail, at), 1 + at, out);
        }
    }
}

#[inline(always)]
fn put<const SIZE: usize>(bytes: [u8; SIZE], at: usize, out: &mut [u8]) {
    out[at..at + SIZE].copy_from_slice(&bytes);
}
