//! Merged read: one listing of two controllers, whose stores are walked side by side. The walk is
//! the same in both forms, which go from key to key and ask their tombstones each in its own way.

use crate::answer::{DONE, OTHER_SET, OUTPUT_SHORT};
use crate::block::Block;
use crate::check::Sound;
use crate::dot::Dot;
use crate::form::{Dead, Form};
use crate::reading::{listing_length, write_listing, Listed};
use crate::store::{keys, Key, Keys};
use crate::tombstone::Tombstone;
use std::cmp::Ordering;

/// Merged read: answers 1, 7, 13.
pub fn merge<F: Form>(
    first: &Block,
    first_store: &[u8],
    second: &Block,
    second_store: &[u8],
    out: &mut [u8],
) -> Listed {
    let sides = [(first, first_store), (second, second_store)];
    try_merge::<F>(sides, out).unwrap_or_else(|answer| Listed {
        answer,
        ..Listed::default()
    })
}

fn try_merge<F: Form>(sides: [(&Block, &[u8]); 2], out: &mut [u8]) -> Result<Listed, u8> {
    let [first, second] = sides.map(|(block, store)| Side::<F>::read(block, store));
    let sides = [first?, second?];
    let [first, second] = &sides;
    if first.sound.prefix.bytes() != second.sound.prefix.bytes() {
        return Err(OTHER_SET);
    }
    let kept = || Kept::of(&sides);
    // An entry is shorter than its keys: as many bytes as both use are always enough.
    if out.len() < first.used.len() + second.used.len() && out.len() < listing_length(kept()) {
        return Err(OUTPUT_SHORT);
    }
    let (written, labels) = write_listing(kept(), out);
    Ok(Listed {
        answer: DONE,
        written,
        labels,
    })
}

/// One of the two controllers.
struct Side<'a, F: Form> {
    sound: Sound<F>,
    used: &'a [u8],
    dead: F::Dead<'a>,
}

impl<'a, F: Form> Side<'a, F> {
    fn read(block: &'a Block, store: &'a [u8]) -> Result<Side<'a, F>, u8> {
        let sound = Sound::read(block, store, &[])?;
        let dead = F::Dead::of(Tombstone::of(block, sound.count));
        let used = &store[..sound.used];
        Ok(Side { sound, used, dead })
    }

    fn keys(&self) -> Keys<'a, F> {
        keys(self.used, self.sound.prefix.len())
    }

    /// Whether a dot that has a key is listed.
    fn lists(&self, dot: Dot) -> bool {
        !self.dead.has(dot)
    }
}

/// The keys that a merged read keeps, in order.
struct Kept<'a, 's, F: Form> {
    sides: &'s [Side<'a, F>; 2],
    rest: [Keys<'a, F>; 2],
    /// The next key of either side.
    next: [Option<Key<'a>>; 2],
}

impl<'a, 's, F: Form> Kept<'a, 's, F> {
    fn of(sides: &'s [Side<'a, F>; 2]) -> Kept<'a, 's, F> {
        let mut rest = sides.each_ref().map(Side::keys);
        let next = rest.each_mut().map(Keys::next);
        Kept { sides, rest, next }
    }

    /// Goes past the next key of a side.
    fn pass(&mut self, side: usize) {
        self.next[side] = self.rest[side].next();
    }

    /// Takes a key that one side has and the other has not, if it is kept.
    fn of_one(&mut self, side: usize, key: Key<'a>) -> Option<Key<'a>> {
        self.pass(side);
        let (one, other) = (&self.sides[side], &self.sides[1 - side]);
        let dot = key.dot();
        (!other.sound.clock.sees(dot) && one.lists(dot)).then_some(key)
    }

    /// Takes a key that both have, if it is kept: both have seen its dot, so that both must list it.
    fn of_both(&mut self, key: Key<'a>) -> Option<Key<'a>> {
        self.pass(0);
        self.pass(1);
        let dot = key.dot();
        self.sides.iter().all(|side| side.lists(dot)).then_some(key)
    }
}

impl<'a, F: Form> Iterator for Kept<'a, '_, F> {
    type Item = Key<'a>;

    #[inline(always)]
    fn next(&mut self) -> Option<Key<'a>> {
        loop {
            let kept = match self.next {
                [None, None] => return None,
                [Some(key), None] => self.of_one(0, key),
                [None, Some(key)] => self.of_one(1, key),
                [Some(one), Some(two)] => match one.tail.cmp(two.tail) {
                    Ordering::Less => self.of_one(0, one),
                    Ordering::Greater => self.of_one(1, two),
                    Ordering::Equal => self.of_both(one),
                },
            };
            if kept.is_some() {
                return kept;
            }
        }
    }
}
