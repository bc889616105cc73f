//! Whether a state with its store is undamaged, and what it says, read once a call.

use crate::answer::DAMAGED;
use crate::block::{self, Block};
use crate::clock::Clock;
use crate::dot::{actor_keeps_rule, Dot};
use crate::form::Form;
use crate::keys::{name_keeps_rule, Prefix};
use crate::tombstone;
use limits::{NAME_MAX, STORE_MAX};

/// What an undamaged state says.
pub struct Sound<F: Form> {
    pub actor: u8,
    pub prefix: Prefix,
    pub clock: Clock,
    /// Dots in the tombstone.
    pub count: usize,
    /// Used bytes of the store.
    pub used: usize,
    /// What is known of the place of a label's keys.
    pub found: F::Found,
}

impl<F: Form> Sound<F> {
    /// Reads and judges block and store: answer 1 if they are damaged. The keys of this label are
    /// what the call will look for.
    #[inline(never)] // Long, and each call has it.
    pub fn read(block: &Block, lent: &[u8], label: &[u8]) -> Result<Sound<F>, u8> {
        judged(block, lent, label).ok_or(DAMAGED)
    }

    pub fn own_base(&self) -> u64 {
        self.clock.row(self.actor).base
    }

    /// Whether this dot is one of the own actor above the own base.
    pub fn is_ahead(&self, dot: Dot) -> bool {
        dot.actor == self.actor && dot.counter > self.own_base()
    }
}

#[inline(always)]
fn judged<F: Form>(block: &Block, lent: &[u8], label: &[u8]) -> Option<Sound<F>> {
    let actor = block::actor(block);
    if lent.len() > STORE_MAX || !actor_keeps_rule(actor) {
        return None;
    }
    let prefix = Prefix::new(name(block)?);
    let clock = Clock::read(block::clock_room(block))?;
    if clock.row(actor).window != 0 {
        return None;
    }
    let count = tombstone::check(block, &clock)?;
    let keys = lent.get(..usize::try_from(block::used(block)).ok()?)?;
    let found = F::judge(keys, &prefix, &clock, label)?;
    Some(Sound {
        actor,
        prefix,
        clock,
        count,
        used: keys.len(),
        found,
    })
}

/// The set name; zeros follow it.
fn name(block: &Block) -> Option<&[u8]> {
    let length = usize::try_from(block::name_length(block)).ok()?;
    let (name, rest) = block::name_room(block).split_at_checked(length.min(NAME_MAX + 1))?;
    let sound = name_keeps_rule(name) && rest.iter().all(|byte| *byte == 0);
    sound.then_some(name)
}
