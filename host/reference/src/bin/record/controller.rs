//! A controller of the console: its state, its lent store, and what each command does with them.
//! Each gives the output line.

use crate::fields::{dots_of, hex_of, joined, text_of, Reason};
use reference::limits::STORE_MAX;
use reference::*;

/// What outputs hold before a call.
const FILL: u8 = 0xEE;

pub struct Controller {
    pub state: State,
    pub store: Vec<u8>,
}

impl Controller {
    /// As every controller starts: the state of a refused set-up, a store of zeros.
    pub fn new() -> Controller {
        Controller {
            state: State::zero(),
            store: vec![0; STORE_MAX],
        }
    }

    // ---- the calls

    pub fn set_up(&mut self, actor: u8, name: &[u8]) -> String {
        let (answer, state) = set_up(actor, name);
        self.state = state;
        format!("setup {answer}")
    }

    pub fn add(&mut self, label: &[u8], context: &[u8], room: usize) -> String {
        let mut out = vec![FILL; room];
        let done = own_add(&self.state, &mut self.store, label, context, &mut out);
        self.state = done.state;
        format!("add {} {}", done.answer, front(&out, done.written))
    }

    pub fn remove(&mut self, context: &[u8], room: usize) -> String {
        let mut out = vec![FILL; room];
        let done = own_remove(&self.state, &self.store, context, &mut out);
        self.state = done.state;
        format!("remove {} {}", done.answer, front(&out, done.written))
    }

    pub fn take(&mut self, message: &[u8]) -> String {
        let done = take_in(&self.state, &mut self.store, message);
        self.state = done.state;
        format!("take {}", done.answer)
    }

    pub fn list(&self, room: usize) -> String {
        let mut out = vec![FILL; room];
        let done = list(&self.state, &self.store, &mut out);
        let listed = front(&out, done.written);
        format!("list {} {} {listed}", done.answer, done.labels)
    }

    pub fn page(&self, start: &[u8], room: usize) -> String {
        let mut out = vec![FILL; room];
        let done = page(&self.state, &self.store, start, &mut out);
        let follow = match (done.answer, done.more) {
            (DONE, true) => "more",
            (DONE, false) => "ended",
            _ => "-",
        };
        let written = front(&out, done.written);
        format!("page {} {} {follow} {written}", done.answer, done.labels)
    }

    /// This controller and another, read as one.
    pub fn merge(&self, other: &Controller, room: usize) -> String {
        let mut out = vec![FILL; room];
        let done = merge(
            &self.state,
            &self.store,
            &other.state,
            &other.store,
            &mut out,
        );
        let listed = front(&out, done.written);
        format!("merge {} {} {listed}", done.answer, done.labels)
    }

    pub fn lookup(&self, label: &[u8]) -> String {
        let done = lookup(&self.state, &self.store, label);
        let listed = if done.listed { "yes" } else { "no" };
        let length = done.end - done.start;
        format!("lookup {} {listed} {} {length}", done.answer, done.start)
    }

    pub fn compact(&mut self) -> String {
        let done = compact(&self.state, &mut self.store);
        self.state = done.state;
        format!("compact {}", done.answer)
    }

    pub fn image(&self, room: usize) -> String {
        let mut out = vec![FILL; room];
        let (answer, written) = write_image(&self.state, &self.store, &mut out);
        format!("image {answer} {}", front(&out, written))
    }

    pub fn load(&mut self, actor: u8, image: &[u8]) -> String {
        let (answer, state) = load_image(actor, image, &mut self.store);
        self.state = state;
        format!("load {answer}")
    }

    // ---- what looks

    pub fn shown_state(&self) -> String {
        let state = &self.state;
        let name = first(&state.name, state.name_len, 1);
        let rows = (1..=16).zip(state.clock.chunks(2));
        let seen = rows.filter(|(_, row)| row[0] != 0 || row[1] != 0);
        let clock = seen.map(|(actor, row)| format!("{actor}:{}:{:016x}", row[0], row[1]));
        format!(
            "state {} {} {} {} {}",
            state.actor,
            text_of(name),
            state.used,
            joined(clock.collect()),
            dots_of(first(&state.tombstone, state.count, 9))
        )
    }

    pub fn shown_store(&self) -> String {
        format!("store {}", hex_of(&self.store))
    }

    // ---- what damages

    /// Lends another store: the used bytes are kept as far as they fit.
    pub fn lend(&mut self, length: usize, fill: u8) -> String {
        let kept = first(&self.store, self.state.used, 1).len();
        self.store.truncate(kept);
        self.store.resize(length, fill);
        format!("buffer {length}")
    }

    pub fn set_name(&mut self, name: &[u8]) {
        self.state.name = [0; 16];
        self.state.name[..name.len()].copy_from_slice(name);
        self.state.name_len = name.len() as u64;
    }

    /// The base (0) or the window (1) of an actor's row.
    pub fn set_row(&mut self, actor: u8, part: usize, number: u64) {
        self.state.clock[2 * (usize::from(actor) - 1) + part] = number;
    }

    pub fn set_dot(&mut self, slot: usize, actor: u8, counter: u64) {
        let place = &mut self.state.tombstone[9 * slot..9 * slot + 9];
        place[0] = actor;
        place[1..].copy_from_slice(&counter.to_be_bytes());
    }

    pub fn set_byte(&mut self, offset: u64, byte: u8) -> Result<(), Reason> {
        let place = usize::try_from(offset).ok();
        let place = place.and_then(|at| self.store.get_mut(at));
        *place.ok_or("outside what can be set")? = byte;
        Ok(())
    }
}

/// The first `count` pieces of `size` bytes, or all where there are fewer.
fn first(bytes: &[u8], count: u64, size: usize) -> &[u8] {
    let most = (bytes.len() / size) as u64;
    &bytes[..count.min(most) as usize * size]
}

/// The bytes written to the front of an output.
fn front(out: &[u8], written: u64) -> String {
    hex_of(first(out, written, 1))
}
