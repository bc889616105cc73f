//! The independent second program, behind the product's interface: its states are written as
//! blocks, its fields as the places where the formats put them.

use super::Engine;
use crate::script::{Command, KeyToWrite, Rack, Reply};
use limits::{DOT_SIZE, KEY_FRONT, KEY_MIDDLE, MESSAGE_HEAD};
use ptl::calls::{KeyRead, Listed, Looked, MessageRead, Paged, Span, Wrote};
use ptl::{Actor, State};
use reference::limits::ROW_WORDS;
use reference::KeyKind;

pub struct Second;

impl Engine for Second {
    fn name(&self) -> &'static str {
        "reference"
    }

    fn run(&self, rack: &mut Rack, command: &Command, out: &mut [u8]) -> Reply {
        let Rack { state, store } = rack;
        match command {
            Command::Setup { actor, name } => {
                let (answer, made) = reference::set_up(*actor, name);
                *state = to_block(&made);
                Reply::Answered(answer)
            }
            Command::Add { label, context, .. } => {
                let done = reference::own_add(&of_block(state), store, label, context, out);
                Reply::Wrote(leave(state, done))
            }
            Command::Remove { context, .. } => {
                let done = reference::own_remove(&of_block(state), store, context, out);
                Reply::Wrote(leave(state, done))
            }
            Command::Take { message } => {
                let done = reference::take_in(&of_block(state), store, message);
                Reply::Answered(leave(state, done).answer)
            }
            Command::List { .. } => listed(reference::list(&of_block(state), store, out)),
            Command::Page { start, .. } => {
                paged(reference::page(&of_block(state), store, start, out))
            }
            Command::Lookup { label } => looked(reference::lookup(&of_block(state), store, label)),
            Command::Compact => {
                let done = reference::compact(&of_block(state), store);
                Reply::Answered(leave(state, done).answer)
            }
            Command::Image { .. } => wrote(reference::write_image(&of_block(state), store, out)),
            Command::Load { actor, image } => {
                let (answer, made) = reference::load_image(*actor, image, store);
                *state = to_block(&made);
                Reply::Answered(answer)
            }
            Command::Key { key, .. } => wrote(write_key(key, out)),
            Command::ReadKey { bytes } => Reply::Key(key(reference::read_key(bytes))),
            Command::ReadMessage { bytes } => Reply::Message(message(bytes)),
        }
    }

    fn merge(&self, first: &Rack, second: &Rack, out: &mut [u8]) -> Reply {
        let [one, two] = [first, second].map(|rack| of_block(&rack.state));
        listed(reference::merge(
            &one,
            &first.store,
            &two,
            &second.store,
            out,
        ))
    }
}

fn write_key(key: &KeyToWrite, out: &mut [u8]) -> (u8, u64) {
    let Some(kind) = KeyKind::of_letter(key.kind) else {
        return (reference::BAD_SHAPE, 0);
    };
    reference::write_key(kind, &key.name, &key.label, key.actor, key.counter, out)
}

fn wrote((answer, written): (u8, u64)) -> Reply {
    let written = written as usize;
    Reply::Wrote(Wrote { answer, written })
}

fn listed(listed: reference::Listed) -> Reply {
    Reply::Listed(Listed {
        answer: listed.answer,
        written: listed.written as usize,
        labels: listed.labels as usize,
    })
}

fn paged(paged: reference::Paged) -> Reply {
    Reply::Paged(Paged {
        answer: paged.answer,
        written: paged.written as usize,
        labels: paged.labels as usize,
        more: paged.more,
    })
}

fn looked(looked: reference::Looked) -> Reply {
    let (at, end) = (looked.start as usize, looked.end as usize);
    Reply::Looked(Looked {
        answer: looked.answer,
        listed: looked.listed,
        found: Span { at, len: end - at },
    })
}

fn key(read: reference::KeyRead) -> KeyRead {
    let name = read.kind.map(|_| (KEY_FRONT, read.name.len()));
    let label_at = KEY_FRONT + read.name.len() + KEY_MIDDLE;
    let labelled = read.kind == Some(KeyKind::Label);
    KeyRead {
        answer: read.answer,
        kind: read.kind.map_or(0, KeyKind::letter),
        name: span(name),
        label: span(labelled.then_some((label_at, read.label.len()))),
        actor: read.actor,
        counter: read.counter,
    }
}

fn message(bytes: &[u8]) -> MessageRead {
    let read = reference::read_message(bytes);
    let mut given = MessageRead {
        answer: read.answer,
        ..MessageRead::default()
    };
    let Some(message) = read.message else {
        return given;
    };
    let name_end = MESSAGE_HEAD + message.name.len();
    given.kind = b'r';
    given.name = span(Some((MESSAGE_HEAD, message.name.len())));
    given.context.at = name_end + 1;
    given.context.len = DOT_SIZE * message.context.len();
    if let Some((label, dot)) = message.add {
        given.kind = b'a';
        given.label = span(Some((name_end + 1, label.len())));
        given.actor = dot.actor.byte();
        given.counter = dot.counter.number();
        given.context.at = name_end + 1 + label.len() + DOT_SIZE + 1;
    }
    given
}

fn span(place: Option<(usize, usize)>) -> Span {
    place.map_or(Span::default(), |(at, len)| Span { at, len })
}

/// Takes over the state that a call gave.
fn leave(state: &mut State, outcome: reference::Outcome) -> Wrote {
    *state = to_block(&outcome.state);
    Wrote {
        answer: outcome.answer,
        written: outcome.written as usize,
    }
}

/// The state of a block.
fn of_block(state: &State) -> reference::State {
    let mut held = reference::State::zero();
    held.actor = state.actor().0;
    held.name.copy_from_slice(state.name_room());
    held.name_len = state.name_length();
    for (actor, row) in (1..).map(Actor).zip(held.clock.chunks_mut(ROW_WORDS)) {
        row[0] = state.base(actor);
        row[1] = state.window(actor);
    }
    held.tombstone.copy_from_slice(state.tombstone_room());
    held.count = state.count();
    held.used = state.used();
    held
}

/// The block of a state.
fn to_block(held: &reference::State) -> State {
    let mut state = State::zero();
    state.set_actor(Actor(held.actor));
    state.set_name(&held.name);
    state.set_name_length(held.name_len);
    for (actor, row) in (1..).map(Actor).zip(held.clock.chunks(ROW_WORDS)) {
        state.set_base(actor, row[0]);
        state.set_window(actor, row[1]);
    }
    for (slot, dot) in ptl::dots_of(&held.tombstone).into_iter().enumerate() {
        state.set_slot(slot, dot);
    }
    state.set_count(held.count);
    state.set_used(held.used);
    state
}
