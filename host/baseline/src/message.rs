//! The bytes of messages, both ways.

use crate::answer::{BAD_DOT, BAD_NAME, BAD_SHAPE, BAD_VERSION, DONE, NO_MARK};
use crate::dot::{dots, is_context, Dot};
use crate::keys::{label_prints, name_keeps_rule};
use limits::{DOT_SIZE, MESSAGE_HEAD};

const MARK: &[u8] = b"PTL";
const VERSION: &[u8] = &[0, 1];
const ADD: u8 = b'a';
const REMOVE: u8 = b'r';

/// A message whose fields keep their rules. A remove has no `add`.
#[derive(Clone, Copy)]
pub struct Message<'a> {
    pub name: &'a [u8],
    pub add: Option<(&'a [u8], Dot)>,
    pub context: &'a [u8],
}

impl<'a> Message<'a> {
    /// Reads a message: answers 2, 3, 4, 5, 6.
    pub fn read(bytes: &'a [u8]) -> Result<Message<'a>, u8> {
        let message = Message::cut(after_version(bytes)?).ok_or(BAD_SHAPE)?;
        message.judge()?;
        Ok(message)
    }

    /// The fields as the length bytes cut them.
    fn cut(bytes: &'a [u8]) -> Option<Message<'a>> {
        let (kind, rest) = bytes.split_first()?;
        let (name, rest) = counted(rest, 1)?;
        let (add, rest) = match *kind {
            ADD => {
                let (label, rest) = counted(rest, 1)?;
                let (dot, rest) = rest.split_first_chunk()?;
                (Some((label, Dot::of_bytes(*dot))), rest)
            }
            REMOVE => (None, rest),
            _ => return None,
        };
        let (context, rest) = counted(rest, DOT_SIZE)?;
        rest.is_empty().then_some(Message { name, add, context })
    }

    /// The rules of the fields: answers 5, 6.
    fn judge(&self) -> Result<(), u8> {
        let label_is_good = self.add.is_none_or(|(label, _)| label_prints(label));
        if !name_keeps_rule(self.name) || !label_is_good {
            return Err(BAD_NAME);
        }
        let dot_is_good = |dot: Dot| dot.keeps_rule() && dots(self.context).all(|d| d != dot);
        if !is_context(self.context) || !self.add.is_none_or(|(_, dot)| dot_is_good(dot)) {
            return Err(BAD_DOT);
        }
        Ok(())
    }

    /// The number of bytes that `write` writes.
    pub fn length(&self) -> usize {
        let add = self.add.map_or(0, |(label, _)| 1 + label.len() + DOT_SIZE);
        MESSAGE_HEAD + self.name.len() + add + 1 + self.context.len()
    }

    /// Writes the message to bytes of its length.
    pub fn write(&self, out: &mut [u8]) {
        let kind = if self.add.is_some() { ADD } else { REMOVE };
        let mut rest = put_head(out, kind, self.name);
        if let Some((label, dot)) = self.add {
            rest = put(rest, &[label.len() as u8]);
            rest = put(rest, label);
            rest = put(rest, &dot.to_bytes());
        }
        let rest = put(rest, &[(self.context.len() / DOT_SIZE) as u8]);
        put(rest, self.context);
    }
}

/// What follows mark and version, in a message or an image: answers 2, 3.
pub fn after_version(bytes: &[u8]) -> Result<&[u8], u8> {
    let rest = bytes.strip_prefix(MARK).ok_or(NO_MARK)?;
    if rest.len() < VERSION.len() {
        return Err(NO_MARK);
    }
    rest.strip_prefix(VERSION).ok_or(BAD_VERSION)
}

/// Writes mark, version, kind and name to the front; what follows them.
pub fn put_head<'a>(out: &'a mut [u8], kind: u8, name: &[u8]) -> &'a mut [u8] {
    let rest = put(out, MARK);
    let rest = put(rest, VERSION);
    let rest = put(rest, &[kind, name.len() as u8]);
    put(rest, name)
}

/// A byte that counts pieces of this size, and then the pieces; and what follows.
pub fn counted(bytes: &[u8], size: usize) -> Option<(&[u8], &[u8])> {
    let (count, rest) = bytes.split_first()?;
    rest.split_at_checked(usize::from(*count) * size)
}

/// Writes bytes to the front; what follows them.
pub fn put<'a>(out: &'a mut [u8], bytes: &[u8]) -> &'a mut [u8] {
    let (front, rest) = out.split_at_mut(bytes.len());
    front.copy_from_slice(bytes);
    rest
}

/// What reading a message alone gives; places are offsets in the bytes read.
#[derive(Clone, Copy, PartialEq, Eq, Debug, Default)]
pub struct MessageRead {
    pub answer: u8,
    pub kind: u8,
    pub name_at: usize,
    pub name_len: usize,
    pub label_at: usize,
    pub label_len: usize,
    pub actor: u8,
    pub counter: u64,
    pub context_at: usize,
    pub context_len: usize,
}

/// Reading a message alone: answers 2, 3, 4, 5, 6.
pub fn read_message(bytes: &[u8]) -> MessageRead {
    let mut read = MessageRead::default();
    let message = match Message::read(bytes) {
        Ok(message) => message,
        Err(answer) => {
            read.answer = answer;
            return read;
        }
    };
    read.answer = DONE;
    read.kind = REMOVE;
    read.name_at = MESSAGE_HEAD;
    read.name_len = message.name.len();
    read.context_len = message.context.len();
    read.context_at = bytes.len() - message.context.len();
    if let Some((label, dot)) = message.add {
        read.kind = ADD;
        read.label_at = MESSAGE_HEAD + message.name.len() + 1;
        read.label_len = label.len();
        read.actor = dot.actor;
        read.counter = dot.counter;
    }
    read
}
