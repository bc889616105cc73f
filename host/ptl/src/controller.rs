//! A controller: its state and the store that it is lent, with the calls.

use crate::answer::Answer;
use crate::calls;
use crate::kinds::{dots_of, dots_to_bytes, Actor, Dot, Label, SetName};
use crate::state::State;
use limits::{DOT_SIZE, IMAGE_MAX, MESSAGE_MAX, STORE_MAX};

/// A state with its store. All calls but the reading ones take it as `&mut`.
#[derive(Clone, PartialEq, Eq, Debug)]
pub struct Controller {
    state: State,
    store: Vec<u8>,
}

/// A listing as the library wrote it, with the number of its labels.
#[derive(Clone, PartialEq, Eq, Debug)]
pub struct Listing {
    pub bytes: Vec<u8>,
    pub labels: usize,
}

/// A page of a listing, in the output that was lent for it.
#[derive(Clone, Copy, PartialEq, Eq, Debug)]
pub struct Page<'a> {
    pub bytes: &'a [u8],
    pub labels: usize,
    /// Whether labels are left after those of the page.
    pub more: bool,
}

/// One label of a listing and its dots.
#[derive(Clone, PartialEq, Eq, Debug)]
pub struct Entry {
    pub label: Label,
    pub dots: Vec<Dot>,
}

/// What lookup found: the stretch of the store with the label's keys, and whether it is listed.
#[derive(Clone, Copy, PartialEq, Eq, Debug)]
pub struct Found<'a> {
    pub keys: &'a [u8],
    /// Where the stretch begins in the store.
    pub start: usize,
    pub listed: bool,
}

impl Controller {
    /// Sets a controller up that has seen nothing, with this store of any content.
    pub fn set_up(actor: Actor, name: &SetName, store: Vec<u8>) -> Result<Controller, Answer> {
        let mut state = State::zero();
        let answer = calls::set_up(actor.0, &name.0, &mut state);
        Answer::give(answer, || Controller { state, store })
    }

    /// Loads the image of another controller into this store of any content: what the writer held, as
    /// an actor that no box of the set has had.
    pub fn load_image(actor: Actor, image: &[u8], store: Vec<u8>) -> Result<Controller, Answer> {
        let (mut state, mut store) = (State::zero(), store);
        let answer = calls::load_image(actor.0, image, &mut state, &mut store);
        Answer::give(answer, || Controller { state, store })
    }

    /// The controller of a state and a store kept elsewhere, damaged or not.
    pub fn of_parts(state: State, store: Vec<u8>) -> Controller {
        Controller { state, store }
    }

    pub fn into_parts(self) -> (State, Vec<u8>) {
        (self.state, self.store)
    }

    pub fn state(&self) -> &State {
        &self.state
    }

    /// The whole lent store, used or not.
    pub fn store(&self) -> &[u8] {
        &self.store
    }

    /// Adds a label, which must print, and removes the context's dots. Gives the add message.
    pub fn own_add(&mut self, label: &Label, context: &[Dot]) -> Result<Vec<u8>, Answer> {
        let mut out = vec![0; MESSAGE_MAX];
        let context = dots_to_bytes(context);
        let (state, store) = (&mut self.state, &mut self.store);
        let done = calls::own_add(state, store, &label.0, &context, &mut out);
        out.truncate(done.written);
        Answer::give(done.answer, || out)
    }

    /// Removes the context's dots. Gives the remove message.
    pub fn own_remove(&mut self, context: &[Dot]) -> Result<Vec<u8>, Answer> {
        let mut out = vec![0; MESSAGE_MAX];
        let context = dots_to_bytes(context);
        let done = calls::own_remove(&mut self.state, &self.store, &context, &mut out);
        out.truncate(done.written);
        Answer::give(done.answer, || out)
    }

    /// Takes in a message, of any bytes.
    pub fn take_in(&mut self, message: &[u8]) -> Result<(), Answer> {
        let answer = calls::take_in(&mut self.state, &mut self.store, message);
        Answer::give(answer, || ())
    }

    /// Lists every label with a dot that is not removed. Never answers `OutputShort`: an entry
    /// is shorter than its keys.
    pub fn list(&self) -> Result<Listing, Answer> {
        let mut bytes = vec![0; self.store.len()];
        let done = calls::list(&self.state, &self.store, &mut bytes);
        bytes.truncate(done.written);
        let labels = done.labels;
        Answer::give(done.answer, || Listing { bytes, labels })
    }

    /// Lists the labels after `start`, or from the front if it is empty: as many as fit whole in
    /// `out`. `Page::next_start` is where the next page starts.
    pub fn page<'o>(&self, start: &Label, out: &'o mut [u8]) -> Result<Page<'o>, Answer> {
        let done = calls::page(&self.state, &self.store, &start.0, out);
        Answer::give(done.answer, || Page {
            bytes: &out[..done.written],
            labels: done.labels,
            more: done.more,
        })
    }

    /// One listing of two controllers of one set, which may be the same: each label with the dots
    /// that both list under it, and those that one lists and the other has not seen. Which is asked
    /// makes no difference. Never answers `OutputShort`: an entry is shorter than its keys.
    pub fn merge(&self, other: &Controller) -> Result<Listing, Answer> {
        let mut bytes = vec![0; self.store.len() + other.store.len()];
        let (state, store) = (&self.state, &self.store);
        let done = calls::merge(state, store, &other.state, &other.store, &mut bytes);
        bytes.truncate(done.written);
        let labels = done.labels;
        Answer::give(done.answer, || Listing { bytes, labels })
    }

    /// Writes a hand-off image, which another box can load. Never answers `OutputShort`.
    pub fn write_image(&self) -> Result<Vec<u8>, Answer> {
        let mut image = vec![0; IMAGE_MAX - STORE_MAX + self.store.len()];
        let done = calls::write_image(&self.state, &self.store, &mut image);
        image.truncate(done.written);
        Answer::give(done.answer, || image)
    }

    /// Looks a label up.
    pub fn lookup(&self, label: &Label) -> Result<Found<'_>, Answer> {
        let looked = calls::lookup(&self.state, &self.store, &label.0);
        Answer::give(looked.answer, || Found {
            keys: looked.found.of(&self.store),
            start: looked.found.at,
            listed: looked.listed,
        })
    }

    /// Drops the keys of removed dots and empties the tombstone; the freed bytes can be used again.
    pub fn compact(&mut self) -> Result<(), Answer> {
        let answer = calls::compact(&mut self.state, &mut self.store);
        Answer::give(answer, || ())
    }
}

impl Listing {
    /// The entries of the listing, in its order.
    pub fn entries(&self) -> Vec<Entry> {
        entries(&self.bytes)
    }
}

impl Page<'_> {
    /// The entries of the page, in its order.
    pub fn entries(&self) -> Vec<Entry> {
        entries(self.bytes)
    }

    /// The label after which the next page starts; none if this is the last page.
    pub fn next_start(&self) -> Option<Label> {
        let last = self.entries().pop().map(|entry| entry.label);
        last.filter(|_| self.more)
    }
}

/// The entries that stand end to end in these bytes.
fn entries(bytes: &[u8]) -> Vec<Entry> {
    let mut entries = Vec::new();
    let mut rest = bytes;
    while let Some((entry, after)) = first_entry(rest) {
        entries.push(entry);
        rest = after;
    }
    entries
}

/// The first entry and what follows it: label length, label, number of dots, dots.
fn first_entry(bytes: &[u8]) -> Option<(Entry, &[u8])> {
    let (length, rest) = bytes.split_first()?;
    let (label, rest) = rest.split_at_checked(usize::from(*length))?;
    let (number, rest) = rest.split_first_chunk()?;
    let number = usize::from(u16::from_be_bytes(*number));
    let (dots, rest) = rest.split_at_checked(number * DOT_SIZE)?;
    let entry = Entry {
        label: Label(label.to_vec()),
        dots: dots_of(dots),
    };
    Some((entry, rest))
}
