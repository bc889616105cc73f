//! "What each call does": the calls on bytes. Each reads the values, works out the
//! answer in the table's order, and only then writes state, store and output.

use crate::answer::*;
use crate::dot::{read_context, Actor, Dot};
use crate::held::{Held, State};
use crate::image;
use crate::keys::{label_keeps_rule, label_prints, name_keeps_rule};
use crate::limits::{STORE_MAX, TOMBSTONE_DOTS_MAX};
use crate::message::{parse, Message};
use std::collections::{BTreeMap, BTreeSet};

/// What a call that may change the state gives. Refused: the state as it came, 0 written.
#[derive(Clone, PartialEq, Eq, Debug)]
pub struct Outcome {
    pub answer: u8,
    pub state: State,
    pub written: u64,
}

/// What listing and merged read give: bytes written and number of labels, both 0 if refused.
#[derive(Clone, PartialEq, Eq, Debug)]
pub struct Listed {
    pub answer: u8,
    pub written: u64,
    pub labels: u64,
}

/// What a page gives: bytes written, number of labels, whether more follow; refused: 0, 0, false.
#[derive(Clone, PartialEq, Eq, Debug)]
pub struct Paged {
    pub answer: u8,
    pub written: u64,
    pub labels: u64,
    pub more: bool,
}

/// What lookup gives: a stretch of the lent store, and whether the label is listed.
#[derive(Clone, PartialEq, Eq, Debug)]
pub struct Looked {
    pub answer: u8,
    pub start: u64,
    pub end: u64,
    pub listed: bool,
}

/// Set-up: an all-zero clock, empty tombstone, used length 0; answer 5 gives the zero state.
pub fn set_up(actor: u8, name: &[u8]) -> (u8, State) {
    let mut state = State::zero();
    if Actor::new(actor).is_none() || !name_keeps_rule(name) {
        return (BAD_NAME, state);
    }
    state.actor = actor;
    state.name[..name.len()].copy_from_slice(name);
    state.name_len = name.len() as u64;
    (DONE, state)
}

/// Own add: answers 1, 5, 6, 8, 9, 10, 11, 12, 13.
pub fn own_add(
    state: &State,
    store: &mut [u8],
    label: &[u8],
    context: &[u8],
    out: &mut [u8],
) -> Outcome {
    outcome(state, try_own_add(state, store, label, context, out))
}

/// Own remove: answers 1, 6, 8, 10, 11, 13. The store is only read.
pub fn own_remove(state: &State, store: &[u8], context: &[u8], out: &mut [u8]) -> Outcome {
    outcome(state, try_own_remove(state, store, context, out))
}

/// Taking in: answers 1 to 8, 10, 11, 12.
pub fn take_in(state: &State, store: &mut [u8], message: &[u8]) -> Outcome {
    outcome(state, try_take_in(state, store, message))
}

/// Compaction: drops every key whose dot is in the tombstone, sets the freed bytes to 0 and
/// leaves the tombstone empty. Answer 1.
pub fn compact(state: &State, store: &mut [u8]) -> Outcome {
    outcome(state, try_compact(state, store))
}

/// Listing: answers 1, 13.
pub fn list(state: &State, store: &[u8], out: &mut [u8]) -> Listed {
    listed(try_list(state, store, out))
}

/// Merged read: one listing of two controllers. Answers 1 if either is damaged, then 7, 13.
pub fn merge(
    first: &State,
    first_store: &[u8],
    second: &State,
    second_store: &[u8],
    out: &mut [u8],
) -> Listed {
    let read = [(first, first_store), (second, second_store)]
        .map(|(state, store)| Held::read(state, store));
    listed(try_merge(read, out))
}

/// Paged listing: the labels after the starting one, the empty one being the front, as many whole
/// entries as fit. Answers 1, 5, 13.
pub fn page(state: &State, store: &[u8], start: &[u8], out: &mut [u8]) -> Paged {
    match try_page(state, store, start, out) {
        Ok((written, labels, more)) => Paged {
            answer: DONE,
            written,
            labels,
            more,
        },
        Err(answer) => Paged {
            answer,
            written: 0,
            labels: 0,
            more: false,
        },
    }
}

/// Writing a hand-off image: answers 1, 13. The bytes written.
pub fn write_image(state: &State, store: &[u8], out: &mut [u8]) -> (u8, u64) {
    match try_write_image(state, store, out) {
        Ok(written) => (DONE, written),
        Err(answer) => (answer, 0),
    }
}

/// Loading a hand-off image into a lent store, as this actor: answers 1, 2, 3, 4, 14, 15, 5, 6, 12 in
/// this order, and then gives the zero state.
pub fn load_image(actor: u8, image: &[u8], store: &mut [u8]) -> (u8, State) {
    match try_load_image(actor, image, store) {
        Ok(state) => (DONE, state),
        Err(answer) => (answer, State::zero()),
    }
}

/// Lookup: answers 1, 5.
pub fn lookup(state: &State, store: &[u8], label: &[u8]) -> Looked {
    match try_lookup(state, store, label) {
        Ok((start, end, listed)) => Looked {
            answer: DONE,
            start,
            end,
            listed,
        },
        Err(answer) => Looked {
            answer,
            start: 0,
            end: 0,
            listed: false,
        },
    }
}

fn listed(result: Result<(u64, u64), u8>) -> Listed {
    let (answer, written, labels) = match result {
        Ok((written, labels)) => (DONE, written, labels),
        Err(answer) => (answer, 0, 0),
    };
    Listed {
        answer,
        written,
        labels,
    }
}

fn outcome(state: &State, result: Result<(State, u64), u8>) -> Outcome {
    let (answer, state, written) = match result {
        Ok((state, written)) => (DONE, state, written),
        Err(answer) => (answer, state.clone(), 0),
    };
    Outcome {
        answer,
        state,
        written,
    }
}

fn try_own_add(
    state: &State,
    store: &mut [u8],
    label: &[u8],
    context: &[u8],
    out: &mut [u8],
) -> Result<(State, u64), u8> {
    let held = Held::read(state, store).ok_or(DAMAGED)?;
    if !label_prints(label) {
        return Err(BAD_NAME);
    }
    let context = read_context(context).ok_or(BAD_DOT)?;
    let taken = next_own_dot(&held);
    if taken.is_some_and(|dot| context.contains(&dot)) {
        return Err(BAD_DOT);
    }
    check_own(&held, &context)?;
    let taken = taken.ok_or(COUNTER_END)?;
    let message = Message {
        name: held.name.clone(),
        add: Some((label.to_vec(), taken)),
        context,
    };
    let (next, state) = merged(&held, &message, store.len())?;
    let written = put_out(&message.bytes(), out)?;
    write_store(&next, store);
    Ok((state, written))
}

fn try_own_remove(
    state: &State,
    store: &[u8],
    context: &[u8],
    out: &mut [u8],
) -> Result<(State, u64), u8> {
    let held = Held::read(state, store).ok_or(DAMAGED)?;
    let context = read_context(context).ok_or(BAD_DOT)?;
    check_own(&held, &context)?;
    let message = Message {
        name: held.name.clone(),
        add: None,
        context,
    };
    let (_, state) = merged(&held, &message, store.len())?;
    Ok((state, put_out(&message.bytes(), out)?))
}

fn try_take_in(state: &State, store: &mut [u8], message: &[u8]) -> Result<(State, u64), u8> {
    let held = Held::read(state, store).ok_or(DAMAGED)?;
    let message = parse(message)?;
    if message.name != held.name {
        return Err(OTHER_SET);
    }
    check_own(&held, &message.context)?;
    if let Some((_, dot)) = &message.add {
        check_own(&held, &[*dot])?;
    }
    let (next, state) = merged(&held, &message, store.len())?;
    write_store(&next, store);
    Ok((state, 0))
}

fn try_compact(state: &State, store: &mut [u8]) -> Result<(State, u64), u8> {
    let held = Held::read(state, store).ok_or(DAMAGED)?;
    let mut next = held.clone();
    next.store.retain(|(_, dot)| !held.tombstone.contains(dot));
    next.tombstone.clear();
    write_store(&next, store);
    store[next.used()..held.used()].fill(0);
    Ok((next.state(state.clock), 0))
}

fn try_list(state: &State, store: &[u8], out: &mut [u8]) -> Result<(u64, u64), u8> {
    let held = Held::read(state, store).ok_or(DAMAGED)?;
    write_listing(&live(&held), out)
}

fn try_merge([one, two]: [Option<Held>; 2], out: &mut [u8]) -> Result<(u64, u64), u8> {
    let (one, two) = one.zip(two).ok_or(DAMAGED)?;
    if one.name != two.name {
        return Err(OTHER_SET);
    }
    write_listing(&live_in_both(&one, &two), out)
}

fn try_page(
    state: &State,
    store: &[u8],
    start: &[u8],
    out: &mut [u8],
) -> Result<(u64, u64, bool), u8> {
    let held = Held::read(state, store).ok_or(DAMAGED)?;
    if !start.is_empty() && !label_keeps_rule(start) {
        return Err(BAD_NAME);
    }
    // No label is empty, so that all of them are after the front.
    let after = live(&held).into_iter().filter(|(label, _)| *label > start);
    let mut left = after.map(|(label, dots)| entry(label, &dots)).peekable();
    let (mut bytes, mut labels) = (Vec::new(), 0);
    while let Some(entry) = left.next_if(|entry| bytes.len() + entry.len() <= out.len()) {
        bytes.extend(entry);
        labels += 1;
    }
    let more = left.peek().is_some();
    if labels == 0 && more {
        return Err(OUTPUT_SHORT);
    }
    out[..bytes.len()].copy_from_slice(&bytes);
    Ok((bytes.len() as u64, labels, more))
}

fn try_write_image(state: &State, store: &[u8], out: &mut [u8]) -> Result<u64, u8> {
    let held = Held::read(state, store).ok_or(DAMAGED)?;
    put_out(&image::image_bytes(&held, &state.clock), out)
}

fn try_load_image(actor: u8, image: &[u8], store: &mut [u8]) -> Result<State, u8> {
    if store.len() > STORE_MAX {
        return Err(DAMAGED);
    }
    let image = image::parse(image)?;
    let actor = Actor::new(actor).ok_or(ACTOR_TAKEN)?;
    if actor.byte() == image.actor || image.row(actor.byte()) != [0, 0] {
        return Err(ACTOR_TAKEN);
    }
    if !name_keeps_rule(image.name) || Actor::new(image.actor).is_none() {
        return Err(BAD_NAME);
    }
    // The keys are judged as a store just as long as they are.
    let writer = image.state().ok_or(BAD_DOT)?;
    let mut held = Held::read(&writer, image.keys).ok_or(BAD_DOT)?;
    if image.keys.len() > store.len() {
        return Err(STORE_FULL);
    }
    held.actor = actor;
    write_store(&held, store);
    Ok(held.state(writer.clock))
}

fn try_lookup(state: &State, store: &[u8], label: &[u8]) -> Result<(u64, u64, bool), u8> {
    let held = Held::read(state, store).ok_or(DAMAGED)?;
    if !label_keeps_rule(label) {
        return Err(BAD_NAME);
    }
    let lengths = |wanted: fn(&[u8], &[u8]) -> bool| -> u64 {
        let labels = held.store.iter().map(|(l, _)| l.as_slice());
        let some = labels.filter(|l| wanted(l, label));
        some.map(|l| held.key_length(l) as u64).sum()
    };
    let start = lengths(|l, asked| l < asked);
    let end = start + lengths(|l, asked| l == asked);
    Ok((start, end, live(&held).contains_key(label)))
}

/// Labels with their dots, in the order of a listing.
type Labels<'a> = BTreeMap<&'a [u8], BTreeSet<Dot>>;

/// Each label with at least one stored key whose dot is not in the tombstone, with those dots.
fn live(held: &Held) -> Labels<'_> {
    let mut listed = Labels::new();
    for (label, dot) in &held.store {
        if !held.tombstone.contains(dot) {
            listed.entry(label).or_default().insert(*dot);
        }
    }
    listed
}

/// What two list together. A label's dot is kept if both list it under that label, or if one
/// lists it and the other's clock has not seen it.
fn live_in_both<'a>(one: &'a Held, two: &'a Held) -> Labels<'a> {
    let (of_one, of_two) = (live(one), live(two));
    let lists = |listed: &Labels, label: &[u8], dot: &Dot| {
        let dots = listed.get(label);
        dots.is_some_and(|dots| dots.contains(dot))
    };
    let mut kept = Labels::new();
    for (label, dots) in of_one.iter().chain(&of_two) {
        for dot in dots {
            let keeps = match (lists(&of_one, label, dot), lists(&of_two, label, dot)) {
                (true, true) => true,
                (true, false) => !two.clock.sees(*dot),
                (false, true) => !one.clock.sees(*dot),
                (false, false) => false,
            };
            if keeps {
                kept.entry(label).or_default().insert(*dot);
            }
        }
    }
    kept
}

/// Writes a listing to the front of the output, or answers 13: its length and number of labels.
fn write_listing(listed: &Labels, out: &mut [u8]) -> Result<(u64, u64), u8> {
    let entries = listed.iter().map(|(label, dots)| entry(label, dots));
    let written = put_out(&entries.collect::<Vec<_>>().concat(), out)?;
    Ok((written, listed.len() as u64))
}

/// The bytes of a listed label: its length, itself, the number of its dots, the dots.
fn entry(label: &[u8], dots: &BTreeSet<Dot>) -> Vec<u8> {
    let mut bytes = vec![label.len() as u8];
    bytes.extend(label);
    bytes.extend((dots.len() as u16).to_be_bytes());
    bytes.extend(dots.iter().flat_map(|dot| dot.bytes()));
    bytes
}

/// Own base + 1; none if the own base is at the largest counter.
fn next_own_dot(held: &Held) -> Option<Dot> {
    let counter = u64::try_from(held.clock.base(held.actor) + 1).ok()?;
    Dot::new(held.actor.byte(), counter)
}

/// Answer 8: an offered dot of the own actor is above the own base.
fn check_own(held: &Held, offered: &[Dot]) -> Result<(), u8> {
    let base = held.clock.base(held.actor);
    let above = |dot: &Dot| dot.actor == held.actor && u128::from(dot.counter.number()) > base;
    if offered.iter().any(above) {
        return Err(OWN_AHEAD);
    }
    Ok(())
}

/// Applies the context, then the add, both judged by the clock as the call began.
/// Answers 10, 11, 12 in this order.
fn merged(held: &Held, message: &Message, store_length: usize) -> Result<(Held, State), u8> {
    let mut next = held.clone();
    for dot in &message.context {
        if held.clock.sees(*dot) {
            next.tombstone.insert(*dot);
        } else {
            next.clock.insert(*dot);
        }
    }
    if let Some((label, dot)) = &message.add {
        if !held.clock.sees(*dot) {
            next.clock.insert(*dot);
            next.store.insert((label.clone(), *dot));
        }
    }
    let rows = next.clock.rows().ok_or(TOO_FAR)?;
    if next.tombstone.len() > TOMBSTONE_DOTS_MAX {
        return Err(TOMBSTONE_FULL);
    }
    if next.used() > store_length {
        return Err(STORE_FULL);
    }
    let state = next.state(rows);
    Ok((next, state))
}

/// Writes bytes to the front of the output, or answers 13: their number.
fn put_out(bytes: &[u8], out: &mut [u8]) -> Result<u64, u8> {
    let place = out.get_mut(..bytes.len()).ok_or(OUTPUT_SHORT)?;
    place.copy_from_slice(bytes);
    Ok(bytes.len() as u64)
}

/// Writes the keys to the front of the store; they are known to fit.
fn write_store(held: &Held, store: &mut [u8]) {
    let bytes = held.store_bytes();
    store[..bytes.len()].copy_from_slice(&bytes);
}
