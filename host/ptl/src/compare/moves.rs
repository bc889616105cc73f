//! The next call on a controller, and the store that is lent for it.

use super::random::Random;
use super::starts::store_length;
use super::{dots, images, messages, pools};
use crate::script::{Command, KeyToWrite, Rack, Tool};
use limits::{label_key_size, DOT_SIZE, KEY_FRONT, LINE_FIXED, MESSAGE_HEAD, STORE_MAX};
use std::collections::BTreeMap;

/// A call of any kind.
pub fn call(random: &mut Random, rack: &Rack, wild: bool) -> Command {
    match random.below(100) {
        0..=24 => own_add(random, rack, wild),
        25..=39 => own_remove(random, rack, wild),
        40..=69 => Command::Take {
            message: messages::made(random, rack, wild),
        },
        70..=89 => looking(random, rack),
        _ => formats(random, rack),
    }
}

pub fn own_add(random: &mut Random, rack: &Rack, wild: bool) -> Command {
    let label = pools::any_label(random);
    let context = dots::context(random, rack, wild);
    let name = rack.state.name().len();
    let need = messages::add_length(name, label.len(), context.len());
    let out = pools::out(random, need);
    Command::Add {
        label,
        context,
        out,
    }
}

pub fn own_remove(random: &mut Random, rack: &Rack, wild: bool) -> Command {
    let context = dots::context(random, rack, wild);
    let need = messages::remove_length(rack.state.name().len(), context.len());
    let out = pools::out(random, need);
    Command::Remove { context, out }
}

/// Listing, page, lookup, image or compaction.
pub fn looking(random: &mut Random, rack: &Rack) -> Command {
    match random.below(16) {
        0..=4 => {
            let need = line_lengths(rack).values().sum();
            let out = pools::out(random, need);
            Command::List { out }
        }
        5..=9 => page(random, rack),
        10..=12 => Command::Lookup {
            label: asked_label(random, rack),
        },
        13 => Command::Image {
            out: pools::out(random, images::length(rack)),
        },
        _ => Command::Compact,
    }
}

/// A page with room for some of the lines after its start, or a little less or more.
fn page(random: &mut Random, rack: &Rack) -> Command {
    let start = page_start(random, rack);
    let lengths = line_lengths(rack);
    let after = lengths.into_iter().filter(|(label, _)| *label > start);
    let after: Vec<usize> = after.map(|(_, length)| length).collect();
    let number = random.between(after.len().min(1), after.len());
    let need: usize = after[..number].iter().sum();
    let out = match random.chance(60) {
        true => need.saturating_sub(1) + random.between(0, DOT_SIZE),
        false => pools::out(random, need),
    };
    Command::Page { start, out }
}

/// The front, a label, or one next to it in order; broken ones are among them.
fn page_start(random: &mut Random, rack: &Rack) -> Vec<u8> {
    let mut start = asked_label(random, rack);
    match random.below(10) {
        0..=2 => start.clear(),
        3 => start.push(1),
        4 => drop(start.pop()),
        _ => (),
    }
    start
}

/// A label that is stored, or any.
fn asked_label(random: &mut Random, rack: &Rack) -> Vec<u8> {
    let name = rack.state.name().len();
    match random.any(&dots::keys(rack)) {
        Some(key) if random.chance(60) => dots::label_of_key(key, name).to_vec(),
        _ => pools::any_label(random),
    }
}

/// The labels that a sound state lists, with the lengths of their lines.
fn line_lengths(rack: &Rack) -> BTreeMap<Vec<u8>, usize> {
    let removed = rack.state.tombstone();
    let name = rack.state.name().len();
    let mut lengths = BTreeMap::new();
    for key in dots::keys(rack) {
        if dots::dot_of_key(key).is_some_and(|dot| removed.binary_search(&dot).is_err()) {
            let label = dots::label_of_key(key, name).to_vec();
            let empty = label.len() + LINE_FIXED;
            *lengths.entry(label).or_insert(empty) += DOT_SIZE;
        }
    }
    lengths
}

/// Writing or reading a key, or reading a message.
pub fn formats(random: &mut Random, rack: &Rack) -> Command {
    match random.below(3) {
        0 => {
            let key = key_to_write(random);
            let need = key_bytes(&key).len();
            let out = pools::out(random, need);
            Command::Key { key, out }
        }
        1 => Command::ReadKey {
            bytes: key_to_read(random),
        },
        _ => Command::ReadMessage {
            bytes: messages::made(random, rack, true),
        },
    }
}

fn key_to_write(random: &mut Random) -> KeyToWrite {
    let kind = match random.chance(3) {
        true => random.byte(),
        false => random.pick(b"cdeeez"),
    };
    let counter = match random.chance(15) {
        true => 0,
        false => pools::number(random),
    };
    KeyToWrite {
        kind,
        name: pools::any_name(random),
        label: pools::any_label(random),
        actor: pools::any_actor(random),
        counter,
    }
}

/// A key, perhaps with fields that its type lacks or with a byte that is no field changed.
fn key_to_read(random: &mut Random) -> Vec<u8> {
    let key = key_to_write(random);
    let mut bytes = key_bytes(&key);
    let kind_at = KEY_FRONT + key.name.len() + 1;
    match random.below(10) {
        0 | 1 => messages::garble(random, &mut bytes),
        2 | 3 => {
            let odd = bytes.len() - 1;
            let at = random.pick(&[0, 1, kind_at - 1, kind_at, kind_at + 1, odd]);
            bytes[at.min(odd)] = random.pick(&[0, 1, 2, 3, b'c', b'z', 255]);
        }
        4 => {
            let kind = random.pick(b"cdez");
            bytes = key_bytes(&KeyToWrite { kind, ..key });
            bytes[kind_at] = random.pick(b"cdez");
        }
        5 => bytes.insert(kind_at + 1, b'B'),
        _ => (),
    }
    bytes
}

/// The bytes of a key of this kind; nothing is checked.
fn key_bytes(key: &KeyToWrite) -> Vec<u8> {
    let mut bytes = [&[2, 1], key.name.as_slice(), &[0, key.kind]].concat();
    if key.kind == b'e' {
        bytes.extend(&key.label);
    }
    bytes.push(0);
    if key.kind != b'z' {
        bytes.push(key.actor);
    }
    bytes.push(0);
    if key.kind == b'e' {
        bytes.extend(key.counter.to_be_bytes());
    }
    bytes
}

/// Another store before a call, now and then: exact for the key that the call may store, one
/// byte short of it, of the longest length or past it.
pub fn lend(random: &mut Random, rack: &Rack, command: &Command) -> Option<Tool> {
    let (used, name) = (rack.used(), rack.state.name().len());
    let fill = random.byte();
    let too_long = rack.store.len() > STORE_MAX;
    let label = match command {
        Command::Add { label, .. } => Some(label.len()),
        Command::Take { message } => message
            .get(MESSAGE_HEAD + name)
            .map(|length| usize::from(*length)),
        _ => None,
    };
    let length = match (random.below(100), label) {
        (0..=3, Some(label)) => used + label_key_size(name, label),
        (4..=6, Some(label)) => used + label_key_size(name, label) - 1,
        (7, _) => STORE_MAX,
        (8, _) => STORE_MAX + 1 + random.below(2) * random.below(4000),
        (9..=35, _) => store_length(random, used, name),
        _ if too_long => store_length(random, used, name),
        _ => return None,
    };
    Some(Tool::Buffer { length, fill })
}
