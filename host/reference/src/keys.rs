//! "Bytes of a key": writing and reading the four types of key, and the rules of name and label.

use crate::answer::{BAD_DOT, BAD_NAME, BAD_SHAPE, DONE, OUTPUT_SHORT};
use crate::dot::{Actor, Counter, Dot};
use crate::limits::{LABEL_MAX, NAME_MAX, PRINT_MAX, PRINT_MIN};

/// Magic byte and version byte.
const FRONT: [u8; 2] = [2, 1];

/// The type of a key.
#[derive(Clone, Copy, PartialEq, Eq, Debug)]
pub enum KeyKind {
    Clock,
    Tombstone,
    Label,
    End,
}

impl KeyKind {
    pub fn letter(self) -> u8 {
        match self {
            KeyKind::Clock => b'c',
            KeyKind::Tombstone => b'd',
            KeyKind::Label => b'e',
            KeyKind::End => b'z',
        }
    }

    pub fn of_letter(letter: u8) -> Option<KeyKind> {
        let all = [
            KeyKind::Clock,
            KeyKind::Tombstone,
            KeyKind::Label,
            KeyKind::End,
        ];
        all.into_iter().find(|kind| kind.letter() == letter)
    }
}

/// What reading a key gives. Refused: answer 4, no kind, all fields empty or 0.
#[derive(Clone, PartialEq, Eq, Debug)]
pub struct KeyRead {
    pub answer: u8,
    pub kind: Option<KeyKind>,
    pub name: Vec<u8>,
    pub label: Vec<u8>,
    pub actor: u8,
    pub counter: u64,
}

/// Set name: 1 to `NAME_MAX` bytes, none of them zero.
pub fn name_keeps_rule(name: &[u8]) -> bool {
    (1..=NAME_MAX).contains(&name.len()) && !name.contains(&0)
}

/// Label: 1 to `LABEL_MAX` bytes, none of them zero.
pub fn label_keeps_rule(label: &[u8]) -> bool {
    (1..=LABEL_MAX).contains(&label.len()) && !label.contains(&0)
}

/// The label of an add (document 02, request 5): within its rule, no byte outside 20 to 7E hexadecimal.
pub fn label_prints(label: &[u8]) -> bool {
    let prints = |byte: &u8| (PRINT_MIN..=PRINT_MAX).contains(byte);
    label_keeps_rule(label) && label.iter().all(prints)
}

/// The bytes of a label key.
pub fn label_key(name: &[u8], label: &[u8], dot: Dot) -> Vec<u8> {
    let mut key = key_front(KeyKind::Label, name, label);
    key.extend([dot.actor.byte(), 0]);
    key.extend(dot.counter.number().to_be_bytes());
    key
}

/// All up to and with the 00 after the label.
fn key_front(kind: KeyKind, name: &[u8], label: &[u8]) -> Vec<u8> {
    let mut key = FRONT.to_vec();
    key.extend(name);
    key.extend([0, kind.letter()]);
    key.extend(label);
    key.push(0);
    key
}

/// Writes a key: 5 for name, label or actor, 6 for the counter, 13 for the output.
/// A field that the type lacks is not looked at.
pub fn write_key(
    kind: KeyKind,
    name: &[u8],
    label: &[u8],
    actor: u8,
    counter: u64,
    out: &mut [u8],
) -> (u8, u64) {
    let key = match key_to_write(kind, name, label, actor, counter) {
        Ok(key) => key,
        Err(answer) => return (answer, 0),
    };
    match out.get_mut(..key.len()) {
        Some(place) => place.copy_from_slice(&key),
        None => return (OUTPUT_SHORT, 0),
    }
    (DONE, key.len() as u64)
}

fn key_to_write(
    kind: KeyKind,
    name: &[u8],
    label: &[u8],
    actor: u8,
    counter: u64,
) -> Result<Vec<u8>, u8> {
    if !name_keeps_rule(name) {
        return Err(BAD_NAME);
    }
    if kind == KeyKind::Label && !label_keeps_rule(label) {
        return Err(BAD_NAME);
    }
    if kind == KeyKind::End {
        let mut key = key_front(kind, name, &[]);
        key.push(0);
        return Ok(key);
    }
    let actor = Actor::new(actor).ok_or(BAD_NAME)?;
    if kind == KeyKind::Label {
        let counter = Counter::new(counter).ok_or(BAD_DOT)?;
        return Ok(label_key(name, label, Dot { actor, counter }));
    }
    let mut key = key_front(kind, name, &[]);
    key.extend([actor.byte(), 0]);
    Ok(key)
}

/// Reads a key: exactly the written forms with nothing left over, anything else is 4.
pub fn read_key(bytes: &[u8]) -> KeyRead {
    parse(bytes).unwrap_or(KeyRead {
        answer: BAD_SHAPE,
        kind: None,
        name: Vec::new(),
        label: Vec::new(),
        actor: 0,
        counter: 0,
    })
}

fn parse(bytes: &[u8]) -> Option<KeyRead> {
    let (name, rest) = up_to_zero(bytes.strip_prefix(&FRONT)?)?;
    let (letter, rest) = rest.split_first()?;
    let kind = KeyKind::of_letter(*letter)?;
    let (label, rest) = up_to_zero(rest)?;
    let (actor, counter) = match (kind, rest) {
        (KeyKind::End, [0]) => (0, 0),
        (KeyKind::Clock | KeyKind::Tombstone, [actor, 0]) => (Actor::new(*actor)?.byte(), 0),
        (KeyKind::Label, [actor, 0, counter @ ..]) => {
            let counter = u64::from_be_bytes(counter.try_into().ok()?);
            let dot = Dot::new(*actor, counter)?;
            (dot.actor.byte(), dot.counter.number())
        }
        _ => return None,
    };
    let label_fits = match kind {
        KeyKind::Label => label_keeps_rule(label),
        _ => label.is_empty(),
    };
    (name_keeps_rule(name) && label_fits).then(|| KeyRead {
        answer: DONE,
        kind: Some(kind),
        name: name.to_vec(),
        label: label.to_vec(),
        actor,
        counter,
    })
}

/// What stands before the first zero byte, and what stands after it.
fn up_to_zero(bytes: &[u8]) -> Option<(&[u8], &[u8])> {
    let zero = bytes.iter().position(|b| *b == 0)?;
    Some((&bytes[..zero], &bytes[zero + 1..]))
}
