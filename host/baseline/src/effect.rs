//! What a context and an add do to a state: worked out first, so that a refusal changes nothing,
//! then done in place.

use crate::answer::{STORE_FULL, TOMBSTONE_FULL, TOO_FAR};
use crate::block::{self, Block};
use crate::check::Sound;
use crate::clock::Clock;
use crate::dot::{dots, Dot};
use crate::form::Form;
use crate::store;
use crate::tombstone::{self, Tombstone};
use limits::{KEY_END, KEY_MAX, TOMBSTONE_DOTS_MAX};

/// A context and an add, and what they make of the clock.
pub struct Effect<'a> {
    context: &'a [u8],
    /// Label and dot.
    add: Option<(&'a [u8], Dot)>,
    /// Whether the add's dot was not seen when the call began.
    is_new: bool,
    clock: Clock,
}

impl<'a> Effect<'a> {
    /// Works the effect out: answers 10, 11, 12.
    pub fn new<F: Form>(
        sound: &Sound<F>,
        block: &Block,
        room: usize,
        context: &'a [u8],
        add: Option<(&'a [u8], Dot)>,
    ) -> Result<Effect<'a>, u8> {
        let mut clock = sound.clock.clone();
        if !clock.join(in_order(context, add.map(|(_, dot)| dot))) {
            return Err(TOO_FAR);
        }
        let dead = Tombstone::of(block, sound.count);
        let joins = dots(context).filter(|dot| sound.clock.sees(*dot) && !dead.has(*dot));
        if sound.count + joins.count() > TOMBSTONE_DOTS_MAX {
            return Err(TOMBSTONE_FULL);
        }
        let is_new = add.is_some_and(|(_, dot)| !sound.clock.sees(dot));
        let key = add.map_or(0, |(label, _)| sound.prefix.len() + label.len() + KEY_END);
        if is_new && sound.used + key > room {
            return Err(STORE_FULL);
        }
        Ok(Effect {
            context,
            add,
            is_new,
            clock,
        })
    }

    /// Changes the block.
    pub fn change_state<F: Form>(&self, sound: &Sound<F>, block: &mut Block) {
        let mut count = sound.count;
        for dot in dots(self.context) {
            if sound.clock.sees(dot) {
                count = tombstone::insert(block, count, dot);
            } else {
                self.change_row(block, dot.actor);
            }
        }
        block::set_count(block, count);
        if let Some((_, dot)) = self.add {
            self.change_row(block, dot.actor);
        }
    }

    fn change_row(&self, block: &mut Block, actor: u8) {
        let row = self.clock.row(actor);
        block::set_row(block, actor, row.base, row.window);
    }

    /// Puts the key of a new add in the store.
    pub fn change_store<F: Form>(&self, sound: &Sound<F>, block: &mut Block, lent: &mut [u8]) {
        let (true, Some((label, dot))) = (self.is_new, self.add) else {
            return;
        };
        let mut key = [0; KEY_MAX];
        let length = sound.prefix.write_key(label, dot, &mut key);
        let key = &key[..length];
        let prefix = sound.prefix.len();
        let at = F::place(sound.found, &lent[..sound.used], prefix, &key[prefix..]);
        store::insert(lent, sound.used, at, key);
        block::set_used(block, sound.used + length);
    }
}

/// The dots of a context with one more at its place among them.
fn in_order(context: &[u8], one: Option<Dot>) -> impl Iterator<Item = Dot> + '_ {
    let before = dots(context).take_while(move |dot| one.is_some_and(|one| *dot < one));
    let after = dots(context).skip_while(move |dot| one.is_some_and(|one| *dot < one));
    before.chain(one).chain(after)
}
