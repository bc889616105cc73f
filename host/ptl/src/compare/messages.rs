//! Messages, made for a controller and garbled on the way.

use super::random::Random;
use super::{dots, pools};
use crate::script::Rack;
use limits::{DOT_SIZE, KEY_END, MESSAGE_HEAD};
use ptl::{dots_to_bytes, Dot};

const MARK: &[u8] = b"PTL\x00\x01";

/// The bytes of an add; nothing is checked.
pub fn add(name: &[u8], label: &[u8], dot: Dot, context: &[u8]) -> Vec<u8> {
    let mut bytes = [MARK, b"a"].concat();
    put_counted(&mut bytes, name, 1);
    put_counted(&mut bytes, label, 1);
    bytes.extend(dot.to_bytes());
    put_counted(&mut bytes, context, DOT_SIZE);
    bytes
}

/// The bytes of a remove; nothing is checked.
pub fn remove(name: &[u8], context: &[u8]) -> Vec<u8> {
    let mut bytes = [MARK, b"r"].concat();
    put_counted(&mut bytes, name, 1);
    put_counted(&mut bytes, context, DOT_SIZE);
    bytes
}

/// The number of pieces of this size in one byte, then the pieces.
fn put_counted(bytes: &mut Vec<u8>, pieces: &[u8], size: usize) {
    bytes.push((pieces.len() / size) as u8);
    bytes.extend(pieces);
}

/// The length of the message of an own add.
pub fn add_length(name: usize, label: usize, context: usize) -> usize {
    remove_length(name, context) + 1 + label + DOT_SIZE
}

/// The length of the message of an own remove.
pub fn remove_length(name: usize, context: usize) -> usize {
    MESSAGE_HEAD + name + 1 + context
}

/// A message for this controller, most likely one that it could accept.
pub fn made(random: &mut Random, rack: &Rack, wild: bool) -> Vec<u8> {
    let name = match random.chance(95) {
        true => rack.state.name().to_vec(),
        false => pools::any_name(random),
    };
    let mut context = dots::context(random, rack, wild);
    let mut message = match random.below(10) {
        0..=3 => remove(&name, &context),
        4 | 5 if wild => at_edges(random, rack, &name),
        _ => {
            let label = pools::any_label(random);
            let dot = dots::dot(random, rack, wild);
            if wild && random.chance(4) {
                context = own_dot_too(&context, dot);
            }
            add(&name, &label, dot, &context)
        }
    };
    if wild && random.chance(12) {
        garble(random, &mut message);
    }
    message
}

/// The context with the add's own dot in its place.
fn own_dot_too(context: &[u8], dot: Dot) -> Vec<u8> {
    let mut dots = ptl::dots_of(context);
    dots.push(dot);
    dots.sort();
    dots_to_bytes(&dots)
}

/// An add whose dot and context lie at the edges of one row.
fn at_edges(random: &mut Random, rack: &Rack, name: &[u8]) -> Vec<u8> {
    let number = random.between(1, 4);
    let mut dots = dots::at_edges(random, &rack.state, number);
    let label = pools::label(random);
    let dot = dots.swap_remove(0);
    dots.retain(|other| *other != dot);
    dots.sort();
    dots.dedup();
    add(name, &label, dot, &dots_to_bytes(&dots))
}

/// Cuts, lengthens or changes bytes, as a radio might, or with an eye to the format.
pub fn garble(random: &mut Random, bytes: &mut Vec<u8>) {
    let at = match random.chance(25) {
        true => bytes.len().saturating_sub(1 + random.below(KEY_END)),
        false => random.below(bytes.len()),
    };
    match random.below(11) {
        0 => bytes.truncate(at),
        1 => bytes.truncate(random.below(MESSAGE_HEAD + 1)),
        2 => bytes.push(random.byte()),
        3 if !bytes.is_empty() => bytes[at] ^= 1 << random.below(8),
        4 if !bytes.is_empty() => bytes[at] = random.byte() >> random.below(8),
        5 if !bytes.is_empty() => {
            bytes.remove(at);
        }
        6 => bytes.insert(at, random.byte()),
        7 => bytes.extend_from_within(at..),
        8 => *bytes = (0..random.below(30)).map(|_| random.byte()).collect(),
        // The mark, the version, the kind and the first length.
        _ => {
            let at = random.below(MESSAGE_HEAD);
            if let Some(byte) = bytes.get_mut(at) {
                *byte = random.pick(&[0, 1, 2, b'P', b'a', b'r', b'i', 255]);
            }
        }
    }
}
