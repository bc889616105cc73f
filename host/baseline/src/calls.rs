//! Set-up and the calls that change a controller.

use crate::answer::*;
use crate::block::{self, Block};
use crate::check::Sound;
use crate::dot::{actor_keeps_rule, dots, is_context, Dot};
use crate::effect::Effect;
use crate::form::{Dead, Form};
use crate::keys::{label_prints, name_keeps_rule};
use crate::message::Message;
use crate::store;
use crate::tombstone::{self, Tombstone};
use limits::STATE_SIZE;

/// What a call gives that writes to an output.
#[derive(Clone, Copy, PartialEq, Eq, Debug)]
pub struct Wrote {
    pub answer: u8,
    pub written: usize,
}

impl Wrote {
    pub(crate) fn done(written: usize) -> Wrote {
        let answer = DONE;
        Wrote { answer, written }
    }

    pub(crate) fn refused(answer: u8) -> Wrote {
        let written = 0;
        Wrote { answer, written }
    }

    pub(crate) fn of(result: Result<usize, u8>) -> Wrote {
        result.map_or_else(Wrote::refused, Wrote::done)
    }
}

/// Set-up: answers 5, and then leaves a state that is zero throughout.
pub fn set_up(actor: u8, name: &[u8], block: &mut Block) -> u8 {
    *block = [0; STATE_SIZE];
    if !actor_keeps_rule(actor) || !name_keeps_rule(name) {
        return BAD_NAME;
    }
    block::set_actor(block, actor);
    block::set_name(block, name);
    DONE
}

/// Own add: answers 1, 5, 6, 8, 9, 10, 11, 12, 13.
pub fn own_add<F: Form>(
    block: &mut Block,
    store: &mut [u8],
    label: &[u8],
    context: &[u8],
    out: &mut [u8],
) -> Wrote {
    Wrote::of(try_own_add::<F>(block, store, label, context, out))
}

fn try_own_add<F: Form>(
    block: &mut Block,
    store: &mut [u8],
    label: &[u8],
    context: &[u8],
    out: &mut [u8],
) -> Result<usize, u8> {
    let sound = Sound::<F>::read(block, store, label)?;
    if !label_prints(label) {
        return Err(BAD_NAME);
    }
    let own = own_dot(&sound);
    if !is_context(context) || dots(context).any(|dot| Some(dot) == own) {
        return Err(BAD_DOT);
    }
    if dots(context).any(|dot| sound.is_ahead(dot)) {
        return Err(OWN_AHEAD);
    }
    let add = Some((label, own.ok_or(COUNTER_END)?));
    let effect = Effect::new(&sound, block, store.len(), context, add)?;
    let name = sound.prefix.name();
    let written = write_message(Message { name, add, context }, out)?;
    effect.change_state(&sound, block);
    effect.change_store(&sound, block, store);
    Ok(written)
}

/// The dot that the next own add takes, if there is a counter left.
fn own_dot<F: Form>(sound: &Sound<F>) -> Option<Dot> {
    let counter = sound.own_base().checked_add(1)?;
    let actor = sound.actor;
    Some(Dot { actor, counter })
}

fn write_message(message: Message, out: &mut [u8]) -> Result<usize, u8> {
    let length = message.length();
    let place = out.get_mut(..length).ok_or(OUTPUT_SHORT)?;
    message.write(place);
    Ok(length)
}

/// Own remove: answers 1, 6, 8, 10, 11, 13.
pub fn own_remove<F: Form>(
    block: &mut Block,
    store: &[u8],
    context: &[u8],
    out: &mut [u8],
) -> Wrote {
    Wrote::of(try_own_remove::<F>(block, store, context, out))
}

fn try_own_remove<F: Form>(
    block: &mut Block,
    store: &[u8],
    context: &[u8],
    out: &mut [u8],
) -> Result<usize, u8> {
    let sound = Sound::<F>::read(block, store, &[])?;
    if !is_context(context) {
        return Err(BAD_DOT);
    }
    if dots(context).any(|dot| sound.is_ahead(dot)) {
        return Err(OWN_AHEAD);
    }
    let add = None;
    let effect = Effect::new(&sound, block, store.len(), context, add)?;
    let name = sound.prefix.name();
    let written = write_message(Message { name, add, context }, out)?;
    effect.change_state(&sound, block);
    Ok(written)
}

/// Taking in a message: answers 1 to 8, 10, 11, 12.
pub fn take_in<F: Form>(block: &mut Block, store: &mut [u8], message: &[u8]) -> u8 {
    match try_take_in::<F>(block, store, message) {
        Ok(()) => DONE,
        Err(answer) => answer,
    }
}

fn try_take_in<F: Form>(block: &mut Block, store: &mut [u8], message: &[u8]) -> Result<(), u8> {
    let message = Message::read(message);
    let sound = Sound::<F>::read(block, store, added_label(&message))?;
    let Message { name, add, context } = message?;
    if name != sound.prefix.name() {
        return Err(OTHER_SET);
    }
    let add_is_ahead = add.is_some_and(|(_, dot)| sound.is_ahead(dot));
    if add_is_ahead || dots(context).any(|dot| sound.is_ahead(dot)) {
        return Err(OWN_AHEAD);
    }
    let effect = Effect::new(&sound, block, store.len(), context, add)?;
    effect.change_state(&sound, block);
    effect.change_store(&sound, block, store);
    Ok(())
}

/// The label that a message adds, if it is an add.
fn added_label<'a>(message: &Result<Message<'a>, u8>) -> &'a [u8] {
    match message {
        Ok(Message { add, .. }) => add.map_or(&[], |(label, _)| label),
        Err(_) => &[],
    }
}

/// Compaction: answers 1.
pub fn compact<F: Form>(block: &mut Block, store: &mut [u8]) -> u8 {
    let sound = match Sound::<F>::read(block, store, &[]) {
        Ok(sound) => sound,
        Err(answer) => return answer,
    };
    let dead = Tombstone::of(block, sound.count);
    if dead.is_empty() {
        return DONE;
    }
    let used = store::drop_dead::<F>(store, sound.used, sound.prefix.len(), F::Dead::of(dead));
    tombstone::clear(block, sound.count);
    block::set_count(block, 0);
    block::set_used(block, used);
    DONE
}
