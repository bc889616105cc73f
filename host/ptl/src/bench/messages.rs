//! Messages as a controller may get them from fifteen others: adds in a shuffled order, and among
//! them repeats, removes, gaps over the window, messages of other sets and garbage.

use super::data::Labels;
use crate::random::Random;
use limits::{ACTORS, ACTOR_MAX, MESSAGE_FRONT, MESSAGE_HEAD, NUMBER_SIZE, WINDOW};
use ptl::{dots_to_bytes, Dot};

/// The other controllers; the one that takes messages in is actor 1.
const OTHERS: std::ops::RangeInclusive<u8> = 2..=ACTOR_MAX;
/// How many places an add may come late: not so many that it is out of the window.
const LATEST: usize = WINDOW as usize * 3 / 4;

/// So many messages of a set.
pub fn messages(random: &mut Random, set: Labels, name: &[u8], number: usize) -> Vec<Vec<u8>> {
    let mut arriving = arrivals(random, number).into_iter();
    let mut came: Vec<(Dot, Vec<u8>)> = Vec::new();
    let mut messages = Vec::with_capacity(number);
    while messages.len() < number {
        let message = match (random.below(100), random.any(&came)) {
            (0..=9, Some((_, add))) => add,
            (10 | 11, Some((dot, _))) => remove(name, &[dot]),
            (12..=15, _) => gap(random, set, name),
            (16..=19, _) => other_set(random, set, name),
            (20..=24, Some((_, add))) => garbage(random, add),
            (_, earlier) => {
                let Some(dot) = arriving.next() else {
                    break;
                };
                let replaced = earlier.filter(|_| random.chance(1)).map(|(dot, _)| dot);
                let add = add(name, &set.label(random), dot, replaced.as_slice());
                came.push((dot, add.clone()));
                add
            }
        };
        messages.push(message);
    }
    messages
}

/// At least so many dots of all actors in the order of their arrival: mixed, each a little late.
fn arrivals(random: &mut Random, number: usize) -> Vec<Dot> {
    let each = number / OTHERS.count() + 1;
    let mut late = Vec::new();
    for actor in OTHERS {
        for counter in 1..=each {
            let dot = Dot::from((actor, counter as u64));
            late.push((counter + random.below(LATEST), random.next(), dot));
        }
    }
    late.sort();
    late.into_iter().map(|(_, _, dot)| dot).collect()
}

/// The bytes of an add.
pub fn add(name: &[u8], label: &[u8], dot: Dot, context: &[Dot]) -> Vec<u8> {
    let mut message = head(b'a', name);
    message.push(label.len() as u8);
    message.extend(label);
    message.extend(dot.to_bytes());
    end(message, context)
}

/// The bytes of a remove.
fn remove(name: &[u8], context: &[Dot]) -> Vec<u8> {
    end(head(b'r', name), context)
}

fn head(kind: u8, name: &[u8]) -> Vec<u8> {
    let mut message = b"PTL\x00\x01".to_vec();
    message.extend([kind, name.len() as u8]);
    message.extend(name);
    message
}

fn end(mut message: Vec<u8>, context: &[Dot]) -> Vec<u8> {
    message.push(context.len() as u8);
    message.extend(dots_to_bytes(context));
    message
}

/// An add far above all that was seen of its actor.
fn gap(random: &mut Random, set: Labels, name: &[u8]) -> Vec<u8> {
    let actor = random.between(2, ACTORS) as u8;
    let counter = 1_000_000 + random.below(1_000) as u64;
    add(name, &set.label(random), Dot::from((actor, counter)), &[])
}

/// An add of a set whose name differs in its last byte.
fn other_set(random: &mut Random, set: Labels, name: &[u8]) -> Vec<u8> {
    let mut other = name.to_vec();
    if let Some(last) = other.last_mut() {
        *last ^= 1;
    }
    let actor = random.between(2, ACTORS) as u8;
    add(&other, &set.label(random), Dot::from((actor, 1)), &[])
}

/// A message that is none any more: cut, run on, or with a field that breaks its rule.
fn garbage(random: &mut Random, mut message: Vec<u8>) -> Vec<u8> {
    let length = message.len();
    match random.below(6) {
        0 => message.truncate(random.below(length)),
        1 => message.push(random.byte()),
        2 => message[random.below(3)] ^= 0x20,
        3 => message[MESSAGE_FRONT - 1] = 2,
        4 => message[MESSAGE_HEAD] = 0,
        _ => {
            let counter = length - 1 - NUMBER_SIZE..length - 1;
            message[counter].fill(0);
        }
    }
    message
}
