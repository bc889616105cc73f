//! Keys and messages as values, read from bytes and, for keys, written to them.

use crate::answer::Answer;
use crate::calls;
use crate::kinds::{dots_of, Actor, Counter, Dot, Label, SetName};
use limits::KEY_MAX;

/// A key of one of the four types.
#[derive(Clone, PartialEq, Eq, Debug)]
pub enum Key {
    Clock {
        name: SetName,
        actor: Actor,
    },
    Tombstone {
        name: SetName,
        actor: Actor,
    },
    Label {
        name: SetName,
        label: Label,
        dot: Dot,
    },
    End {
        name: SetName,
    },
}

/// A message.
#[derive(Clone, PartialEq, Eq, Debug)]
pub enum Message {
    Add {
        name: SetName,
        label: Label,
        dot: Dot,
        context: Vec<Dot>,
    },
    Remove {
        name: SetName,
        context: Vec<Dot>,
    },
}

/// The bytes of a key.
pub fn write_key(key: &Key) -> Result<Vec<u8>, Answer> {
    let mut out = vec![0; KEY_MAX];
    let wrote = match key {
        Key::Clock { name, actor } => calls::write_key(b'c', &name.0, &[], actor.0, 0, &mut out),
        Key::Tombstone { name, actor } => {
            calls::write_key(b'd', &name.0, &[], actor.0, 0, &mut out)
        }
        Key::Label { name, label, dot } => {
            let (actor, counter) = (dot.actor.0, dot.counter.0);
            calls::write_key(b'e', &name.0, &label.0, actor, counter, &mut out)
        }
        Key::End { name } => calls::write_key(b'z', &name.0, &[], 0, 0, &mut out),
    };
    out.truncate(wrote.written);
    Answer::give(wrote.answer, || out)
}

/// The key in these bytes.
pub fn read_key(bytes: &[u8]) -> Result<Key, Answer> {
    let read = calls::read_key(bytes);
    let name = SetName(read.name.of(bytes).to_vec());
    let actor = Actor(read.actor);
    let key = match read.kind {
        b'c' => Key::Clock { name, actor },
        b'd' => Key::Tombstone { name, actor },
        b'e' => Key::Label {
            name,
            label: Label(read.label.of(bytes).to_vec()),
            dot: Dot::new(actor, Counter(read.counter)),
        },
        _ => Key::End { name },
    };
    Answer::give(read.answer, || key)
}

/// The message in these bytes.
pub fn read_message(bytes: &[u8]) -> Result<Message, Answer> {
    let read = calls::read_message(bytes);
    let name = SetName(read.name.of(bytes).to_vec());
    let context = dots_of(read.context.of(bytes));
    let message = match read.kind {
        b'a' => Message::Add {
            name,
            label: Label(read.label.of(bytes).to_vec()),
            dot: Dot::new(Actor(read.actor), Counter(read.counter)),
            context,
        },
        _ => Message::Remove { name, context },
    };
    Answer::give(read.answer, || message)
}
