//! "Bytes of a message": messages as values, read from bytes and written to them.

use crate::answer::{BAD_DOT, BAD_NAME, BAD_SHAPE, BAD_VERSION, DONE, NO_MARK};
use crate::dot::{read_context, Dot};
use crate::keys::{label_prints, name_keeps_rule};
use crate::limits::DOT_SIZE;

const MARK: [u8; 3] = *b"PTL";
const VERSION_ONE: [u8; 2] = [0, 1];
const ADD: u8 = b'a';
const REMOVE: u8 = b'r';

/// A message all of whose fields keep their rules. A remove has no `add`.
#[derive(Clone, PartialEq, Eq, Debug)]
pub struct Message {
    pub name: Vec<u8>,
    pub add: Option<(Vec<u8>, Dot)>,
    pub context: Vec<Dot>,
}

/// What reading a message gives: a message exactly if the answer is 0.
#[derive(Clone, PartialEq, Eq, Debug)]
pub struct MessageRead {
    pub answer: u8,
    pub message: Option<Message>,
}

/// Reads a message alone: 2, 3, 4, 5, 6 in this order, else the message.
pub fn read_message(bytes: &[u8]) -> MessageRead {
    match parse(bytes) {
        Ok(message) => MessageRead {
            answer: DONE,
            message: Some(message),
        },
        Err(answer) => MessageRead {
            answer,
            message: None,
        },
    }
}

/// The message, or the number of the refusal.
pub fn parse(bytes: &[u8]) -> Result<Message, u8> {
    judge(&parts(after_version(bytes)?).ok_or(BAD_SHAPE)?)
}

/// What stands after mark and version, of a message or an image; answers 2, 3.
pub fn after_version(bytes: &[u8]) -> Result<&[u8], u8> {
    if bytes.len() < MARK.len() + VERSION_ONE.len() {
        return Err(NO_MARK);
    }
    let rest = bytes.strip_prefix(&MARK).ok_or(NO_MARK)?;
    rest.strip_prefix(&VERSION_ONE).ok_or(BAD_VERSION)
}

/// Mark and version, at the front of a message or an image.
pub fn front() -> Vec<u8> {
    [&MARK[..], &VERSION_ONE].concat()
}

/// The fields of a message as the length bytes cut them, not yet judged by their rules.
struct Parts<'a> {
    name: &'a [u8],
    add: Option<(&'a [u8], &'a [u8])>,
    context: &'a [u8],
}

/// The structure alone: none if the kind is unknown, a field runs past the end or bytes are left.
fn parts(bytes: &[u8]) -> Option<Parts<'_>> {
    let (kind, mut rest) = bytes.split_first()?;
    let name = counted(&mut rest, 1)?;
    let add = match *kind {
        ADD => Some((counted(&mut rest, 1)?, cut(&mut rest, DOT_SIZE)?)),
        REMOVE => None,
        _ => return None,
    };
    let context = counted(&mut rest, DOT_SIZE)?;
    rest.is_empty().then_some(Parts { name, add, context })
}

/// Takes a byte that counts pieces of `size` bytes, then the pieces.
pub fn counted<'a>(rest: &mut &'a [u8], size: usize) -> Option<&'a [u8]> {
    let count = cut(rest, 1)?[0];
    cut(rest, usize::from(count) * size)
}

/// Takes the next bytes, if there are as many.
pub fn cut<'a>(rest: &mut &'a [u8], length: usize) -> Option<&'a [u8]> {
    if rest.len() < length {
        return None;
    }
    let (taken, left) = rest.split_at(length);
    *rest = left;
    Some(taken)
}

/// The rules of the fields: 5 for name and label, then 6 for the dot and the context.
fn judge(parts: &Parts) -> Result<Message, u8> {
    let label_fits = parts.add.is_none_or(|(label, _)| label_prints(label));
    if !name_keeps_rule(parts.name) || !label_fits {
        return Err(BAD_NAME);
    }
    let add = match parts.add {
        Some((label, dot)) => Some((label.to_vec(), Dot::read(dot).ok_or(BAD_DOT)?)),
        None => None,
    };
    let context = read_context(parts.context).ok_or(BAD_DOT)?;
    if add.as_ref().is_some_and(|(_, dot)| context.contains(dot)) {
        return Err(BAD_DOT);
    }
    Ok(Message {
        name: parts.name.to_vec(),
        add,
        context,
    })
}

impl Message {
    /// The bytes of the message.
    pub fn bytes(&self) -> Vec<u8> {
        let mut bytes = front();
        bytes.push(if self.add.is_some() { ADD } else { REMOVE });
        bytes.push(self.name.len() as u8);
        bytes.extend(&self.name);
        if let Some((label, dot)) = &self.add {
            bytes.push(label.len() as u8);
            bytes.extend(label);
            bytes.extend(dot.bytes());
        }
        bytes.push(self.context.len() as u8);
        for dot in &self.context {
            bytes.extend(dot.bytes());
        }
        bytes
    }
}
