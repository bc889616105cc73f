//! The bytes of keys: the prefix that all label keys of a set share, what follows it, and reading
//! and writing a key of any type.

use crate::answer::{BAD_DOT, BAD_NAME, BAD_SHAPE, DONE, OUTPUT_SHORT};
use crate::calls::Wrote;
use crate::dot::{actor_keeps_rule, Dot};
use limits::{KEY_END, KEY_FRONT, KEY_MAX, KEY_MIDDLE, LABEL_MAX, NAME_MAX, PRINT_MAX, PRINT_MIN};

/// Magic and version.
const FRONT: [u8; KEY_FRONT] = [2, 1];
/// Bytes of the shortest prefix, and of the longest.
pub const PREFIX_MIN: usize = KEY_FRONT + 1 + KEY_MIDDLE;
pub const PREFIX_MAX: usize = KEY_FRONT + NAME_MAX + KEY_MIDDLE;

pub fn name_keeps_rule(name: &[u8]) -> bool {
    (1..=NAME_MAX).contains(&name.len()) && !name.contains(&0)
}

pub fn label_keeps_rule(label: &[u8]) -> bool {
    (1..=LABEL_MAX).contains(&label.len()) && !label.contains(&0)
}

/// Whether an add may have the label: within its rule, which no byte that prints breaks.
pub fn label_prints(label: &[u8]) -> bool {
    let prints = |byte: &u8| (PRINT_MIN..=PRINT_MAX).contains(byte);
    (1..=LABEL_MAX).contains(&label.len()) && label.iter().all(prints)
}

/// The bytes before the label in every label key of a set.
#[derive(Clone, Copy)]
pub struct Prefix {
    bytes: [u8; PREFIX_MAX],
    len: usize,
}

impl Prefix {
    /// The prefix of a set whose name keeps its rule.
    pub fn new(name: &[u8]) -> Prefix {
        let mut bytes = [0; PREFIX_MAX];
        let len = write_front(&mut bytes, name, b'e');
        Prefix { bytes, len }
    }

    pub fn bytes(&self) -> &[u8] {
        &self.bytes[..self.len]
    }

    pub fn len(&self) -> usize {
        self.len
    }

    pub fn name(&self) -> &[u8] {
        &self.bytes[KEY_FRONT..self.len - KEY_MIDDLE]
    }

    /// Writes a label key to the front of these bytes; its length.
    pub fn write_key(&self, label: &[u8], dot: Dot, out: &mut [u8; KEY_MAX]) -> usize {
        let end = self.len + label.len();
        out[..self.len].copy_from_slice(self.bytes());
        out[self.len..end].copy_from_slice(label);
        out[end..end + KEY_END].copy_from_slice(&dot_end(dot));
        end + KEY_END
    }
}

/// Writes magic, version, name, 00 and type; their length.
fn write_front(out: &mut [u8], name: &[u8], kind: u8) -> usize {
    let end = KEY_FRONT + name.len();
    out[..KEY_FRONT].copy_from_slice(&FRONT);
    out[KEY_FRONT..end].copy_from_slice(name);
    out[end..end + KEY_MIDDLE].copy_from_slice(&[0, kind]);
    end + KEY_MIDDLE
}

/// The bytes of a label key from the 00 after its label on.
fn dot_end(dot: Dot) -> [u8; KEY_END] {
    let mut end = [0; KEY_END];
    end[1] = dot.actor;
    end[3..].copy_from_slice(&dot.counter.to_be_bytes());
    end
}

/// Writing a key: 4 for an unknown type, then 5, 6, 13.
pub fn write_key(
    kind: u8,
    name: &[u8],
    label: &[u8],
    actor: u8,
    counter: u64,
    out: &mut [u8],
) -> Wrote {
    let mut key = [0; KEY_MAX];
    let dot = Dot { actor, counter };
    let length = match key_to_write(kind, name, label, dot, &mut key) {
        Ok(length) => length,
        Err(answer) => return Wrote::refused(answer),
    };
    let Some(place) = out.get_mut(..length) else {
        return Wrote::refused(OUTPUT_SHORT);
    };
    place.copy_from_slice(&key[..length]);
    Wrote::done(length)
}

fn key_to_write(
    kind: u8,
    name: &[u8],
    label: &[u8],
    dot: Dot,
    key: &mut [u8; KEY_MAX],
) -> Result<usize, u8> {
    if !matches!(kind, b'c' | b'd' | b'e' | b'z') {
        return Err(BAD_SHAPE);
    }
    let label_is_good = kind != b'e' || label_keeps_rule(label);
    let actor_is_good = kind == b'z' || actor_keeps_rule(dot.actor);
    if !name_keeps_rule(name) || !label_is_good || !actor_is_good {
        return Err(BAD_NAME);
    }
    if kind == b'e' {
        if dot.counter == 0 {
            return Err(BAD_DOT);
        }
        return Ok(Prefix::new(name).write_key(label, dot, key));
    }
    let end = write_front(key, name, kind);
    if kind == b'z' {
        return Ok(end + 2);
    }
    key[end + 1] = dot.actor;
    Ok(end + 3)
}

/// What reading a key gives; places are offsets in the bytes read.
#[derive(Clone, Copy, PartialEq, Eq, Debug, Default)]
pub struct KeyRead {
    pub answer: u8,
    pub kind: u8,
    pub name_at: usize,
    pub name_len: usize,
    pub label_at: usize,
    pub label_len: usize,
    pub actor: u8,
    pub counter: u64,
}

/// Reading a key: answers 4.
pub fn read_key(bytes: &[u8]) -> KeyRead {
    parse(bytes).unwrap_or(KeyRead {
        answer: BAD_SHAPE,
        ..KeyRead::default()
    })
}

fn parse(bytes: &[u8]) -> Option<KeyRead> {
    let (name, rest) = until_zero(bytes.strip_prefix(&FRONT)?)?;
    let (kind, rest) = rest.split_first()?;
    let (label, rest) = until_zero(rest)?;
    let (actor, counter, label_at) = match (kind, rest) {
        (b'z', [0]) if label.is_empty() => (0, 0, 0),
        (b'c' | b'd', [actor, 0]) if label.is_empty() => (*actor, 0, 0),
        (b'e', [actor, 0, counter @ ..]) if label_keeps_rule(label) => {
            let counter = u64::from_be_bytes(counter.try_into().ok()?);
            (*actor, counter, KEY_FRONT + name.len() + KEY_MIDDLE)
        }
        _ => return None,
    };
    let actor_is_good = *kind == b'z' || actor_keeps_rule(actor);
    let counter_is_good = *kind != b'e' || counter != 0;
    let sound = name_keeps_rule(name) && actor_is_good && counter_is_good;
    sound.then_some(KeyRead {
        answer: DONE,
        kind: *kind,
        name_at: KEY_FRONT,
        name_len: name.len(),
        label_at,
        label_len: label.len(),
        actor,
        counter,
    })
}

/// What stands before the first 00 and what stands after it.
fn until_zero(bytes: &[u8]) -> Option<(&[u8], &[u8])> {
    let zero = bytes.iter().position(|byte| *byte == 0)?;
    Some((&bytes[..zero], &bytes[zero + 1..]))
}
