//! The plain form: keys are cut and compared as slices, and places are found by a second walk.

use crate::clock::Clock;
use crate::dot::Dot;
use crate::form::{Dead, Ends, Form};
use crate::keys::Prefix;
use crate::reading::write_listing;
use crate::store::{dot_of, keys};
use crate::tombstone::Tombstone;
use limits::{KEY_END, LABEL_MAX};

/// The calls as an ordinary program has them.
#[derive(Clone, Copy, PartialEq, Eq, Debug)]
pub struct Plain;

impl Form for Plain {
    const NAME: &'static str = "baseline";

    type Found = ();
    type Ends = ByteByByte;
    type Dead<'a> = Tombstone<'a>;

    fn judge(used: &[u8], prefix: &Prefix, clock: &Clock, _: &[u8]) -> Option<()> {
        is_sound::<Plain>(used, prefix.bytes(), clock, |_, _| ()).then_some(())
    }

    fn stretch((): (), used: &[u8], prefix: usize, label: &[u8]) -> (usize, usize) {
        let first = keys::<Plain>(used, prefix).find(|key| key.label() >= label);
        let start = first.map_or(used.len(), |key| key.at);
        let same = keys::<Plain>(&used[start..], prefix).take_while(|key| key.label() == label);
        (
            start,
            start + same.count() * (prefix + label.len() + KEY_END),
        )
    }

    fn place((): (), used: &[u8], prefix: usize, tail: &[u8]) -> usize {
        let above = keys::<Plain>(used, prefix).find(|key| key.tail > tail);
        above.map_or(used.len(), |key| key.at)
    }

    #[inline(always)]
    fn write_listing(
        used: &[u8],
        prefix: usize,
        dead: &Tombstone,
        out: &mut [u8],
    ) -> (usize, usize) {
        write_live::<Plain>(used, prefix, dead, out)
    }
}

/// Writes the listing of a sound store, key by key.
#[inline(always)]
pub fn write_live<F: Form>(
    used: &[u8],
    prefix: usize,
    dead: &Tombstone,
    out: &mut [u8],
) -> (usize, usize) {
    let dead = *dead;
    let live = keys::<F>(used, prefix).filter(|key| dead.is_empty() || !dead.has(key.dot()));
    write_listing(live, out)
}

/// Looks at one byte after the other.
#[derive(Default)]
pub struct ByteByByte;

impl Ends for ByteByByte {
    fn length(&mut self, bytes: &[u8]) -> Option<usize> {
        bytes.iter().position(|byte| *byte == 0)
    }
}

impl<'a> Dead<'a> for Tombstone<'a> {
    fn of(tombstone: Tombstone<'a>) -> Tombstone<'a> {
        tombstone
    }

    fn has(&self, dot: Dot) -> bool {
        self.find(dot).is_ok()
    }
}

/// Whether a store is sound. Each key is met in its turn: its label, and where the key ends.
#[inline(always)]
pub fn is_sound<F: Form>(
    used: &[u8],
    prefix: &[u8],
    clock: &Clock,
    mut meet: impl FnMut(&[u8], usize),
) -> bool {
    let mut before: &[u8] = &[];
    let mut rest = used;
    while !rest.is_empty() {
        let Some((tail, dot, after)) = first_key::<F>(rest, prefix) else {
            return false;
        };
        if before >= tail || !clock.sees(dot) {
            return false;
        }
        meet(&tail[..tail.len() - KEY_END], used.len() - after.len());
        before = tail;
        rest = after;
    }
    true
}

/// The first key, if it is one: its bytes from the label on, its dot, and what follows.
fn first_key<'a, F: Form>(bytes: &'a [u8], prefix: &[u8]) -> Option<(&'a [u8], Dot, &'a [u8])> {
    let body = bytes.strip_prefix(prefix)?;
    let label = F::Ends::default().length(body)?;
    let (tail, rest) = body.split_at_checked(label + KEY_END)?;
    let dot = dot_of(tail)?;
    let sound = (1..=LABEL_MAX).contains(&label) && dot.keeps_rule();
    sound.then_some((tail, dot, rest))
}
