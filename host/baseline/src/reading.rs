//! The calls that only read a controller: listing, paged listing and lookup.

use crate::answer::{BAD_NAME, DONE, OUTPUT_SHORT};
use crate::block::Block;
use crate::check::Sound;
use crate::dot::Dot;
use crate::form::{Dead, Form};
use crate::keys::label_keeps_rule;
use crate::store::{keys, runs, Key};
use crate::tombstone::Tombstone;
use limits::{DOT_COUNT_SIZE, DOT_SIZE, LINE_FIXED};

/// What listing and merged read give.
#[derive(Clone, Copy, PartialEq, Eq, Debug, Default)]
pub struct Listed {
    pub answer: u8,
    pub written: usize,
    pub labels: usize,
}

/// What a page gives.
#[derive(Clone, Copy, PartialEq, Eq, Debug, Default)]
pub struct Paged {
    pub answer: u8,
    pub written: usize,
    pub labels: usize,
    pub more: bool,
}

/// What lookup gives: where the label's keys stand in the store, and whether it is listed.
#[derive(Clone, Copy, PartialEq, Eq, Debug, Default)]
pub struct Looked {
    pub answer: u8,
    pub listed: bool,
    pub at: usize,
    pub len: usize,
}

/// Listing: answers 1, 13.
pub fn list<F: Form>(block: &Block, store: &[u8], out: &mut [u8]) -> Listed {
    try_list::<F>(block, store, out).unwrap_or_else(|answer| Listed {
        answer,
        ..Listed::default()
    })
}

fn try_list<F: Form>(block: &Block, store: &[u8], out: &mut [u8]) -> Result<Listed, u8> {
    let sound = Sound::<F>::read(block, store, &[])?;
    let (used, prefix) = (&store[..sound.used], sound.prefix.len());
    let dead = F::Dead::of(Tombstone::of(block, sound.count));
    let live = || keys::<F>(used, prefix).filter(|key| !dead.has(key.dot()));
    // An entry is shorter than its keys: as many bytes as are used are always enough.
    if out.len() < used.len() && out.len() < listing_length(live()) {
        return Err(OUTPUT_SHORT);
    }
    let (written, labels) = F::write_listing(used, prefix, &dead, out);
    Ok(Listed {
        answer: DONE,
        written,
        labels,
    })
}

/// The bytes of the listing of these keys.
pub fn listing_length<'a>(live: impl Iterator<Item = Key<'a>>) -> usize {
    let (mut length, mut label) = (0, [].as_slice());
    for key in live {
        if key.label() != label {
            label = key.label();
            length += label.len() + LINE_FIXED;
        }
        length += DOT_SIZE;
    }
    length
}

/// Writes the listing of these keys, for which there is room: its length and number of labels.
pub fn write_listing<'a>(live: impl Iterator<Item = Key<'a>>, out: &mut [u8]) -> (usize, usize) {
    let (mut at, mut labels, mut label) = (0, 0, [].as_slice());
    // The number of the label's dots, and where it is written.
    let (mut number, mut number_at) = (0u16, 0);
    for key in live {
        if key.label() != label {
            label = key.label();
            labels += 1;
            number = 0;
            number_at = write_label(label, at, out);
            at = number_at + DOT_COUNT_SIZE;
        }
        number += 1;
        out[number_at..number_at + DOT_COUNT_SIZE].copy_from_slice(&number.to_be_bytes());
        out[at..at + DOT_SIZE].copy_from_slice(&key.dot().to_bytes());
        at += DOT_SIZE;
    }
    (at, labels)
}

/// Writes a label's length and the label; where the number of its dots goes.
fn write_label(label: &[u8], at: usize, out: &mut [u8]) -> usize {
    let end = at + 1 + label.len();
    out[at] = label.len() as u8;
    out[at + 1..end].copy_from_slice(label);
    end
}

/// Paged listing: answers 1, 5, 13.
pub fn page<F: Form>(block: &Block, store: &[u8], start: &[u8], out: &mut [u8]) -> Paged {
    try_page::<F>(block, store, start, out).unwrap_or_else(|answer| Paged {
        answer,
        ..Paged::default()
    })
}

fn try_page<F: Form>(
    block: &Block,
    store: &[u8],
    start: &[u8],
    out: &mut [u8],
) -> Result<Paged, u8> {
    let sound = Sound::<F>::read(block, store, start)?;
    if !start.is_empty() && !label_keeps_rule(start) {
        return Err(BAD_NAME);
    }
    let (used, prefix) = (&store[..sound.used], sound.prefix.len());
    let from = match start.is_empty() {
        true => 0,
        false => F::stretch(sound.found, used, prefix, start).1,
    };
    let dead = F::Dead::of(Tombstone::of(block, sound.count));
    let page = write_page::<F>(&used[from..], prefix, &dead, out);
    match page.more && page.labels == 0 {
        true => Err(OUTPUT_SHORT),
        false => Ok(page),
    }
}

/// Writes as many whole entries of these keys as fit.
fn write_page<F: Form>(keys: &[u8], prefix: usize, dead: &F::Dead<'_>, out: &mut [u8]) -> Paged {
    let mut page = Paged::default();
    for run in runs::<F>(keys, prefix) {
        let live = run.dots.filter(|dot| !dead.has(*dot));
        let room = &mut out[page.written..];
        // Live dots are counted only where there is no room for all.
        if entry_length(run.label, run.number) > room.len() {
            let number = live.clone().count();
            page.more = number > 0 && entry_length(run.label, number) > room.len();
        }
        if page.more {
            break;
        }
        let written = write_entry(run.label, live, room);
        page.written += written;
        page.labels += usize::from(written > 0);
    }
    page
}

fn entry_length(label: &[u8], dots: usize) -> usize {
    label.len() + LINE_FIXED + dots * DOT_SIZE
}

/// Writes an entry, for which there is room; its length. Without dots there is none,
/// and no room is needed.
fn write_entry(label: &[u8], dots: impl Iterator<Item = Dot>, out: &mut [u8]) -> usize {
    let dots_at = entry_length(label, 0);
    let places = out.get_mut(dots_at..).unwrap_or_default();
    let mut number = 0;
    for (place, dot) in places.chunks_exact_mut(DOT_SIZE).zip(dots) {
        place.copy_from_slice(&dot.to_bytes());
        number += 1;
    }
    if number == 0 {
        return 0;
    }
    let number_at = write_label(label, 0, out);
    out[number_at..dots_at].copy_from_slice(&(number as u16).to_be_bytes());
    entry_length(label, number)
}

/// Lookup: answers 1, 5.
pub fn lookup<F: Form>(block: &Block, store: &[u8], label: &[u8]) -> Looked {
    try_lookup::<F>(block, store, label).unwrap_or_else(|answer| Looked {
        answer,
        ..Looked::default()
    })
}

fn try_lookup<F: Form>(block: &Block, store: &[u8], label: &[u8]) -> Result<Looked, u8> {
    let sound = Sound::<F>::read(block, store, label)?;
    if !label_keeps_rule(label) {
        return Err(BAD_NAME);
    }
    let (used, prefix) = (&store[..sound.used], sound.prefix.len());
    let dead = Tombstone::of(block, sound.count);
    let (start, end) = F::stretch(sound.found, used, prefix, label);
    let listed = keys::<F>(&used[start..end], prefix).any(|key| !dead.has(key.dot()));
    Ok(Looked {
        answer: DONE,
        listed,
        at: start,
        len: end - start,
    })
}
