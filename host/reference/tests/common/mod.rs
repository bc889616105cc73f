//! What the tests share: a controller of set "R1" with its store, whose every call is also
//! checked for the bytes it must leave alone; bytes written out by hand; a small generator.
#![allow(dead_code)]

use reference::*;

pub const LARGEST: u64 = u64::MAX;
/// An output with room for any message.
pub const MESSAGE_ROOM: usize = 700;
/// Room for all of an image but its keys.
pub const IMAGE_ROOM: usize = 1500;
/// What unused output and store bytes hold before a call.
const FILL: u8 = 0xA5;

/// A controller and its lent store.
#[derive(Clone, PartialEq, Eq, Debug)]
pub struct Bench {
    pub state: State,
    pub store: Vec<u8>,
}

impl Bench {
    pub fn new(actor: u8) -> Bench {
        Bench::with_store(actor, 4096)
    }

    pub fn with_store(actor: u8, length: usize) -> Bench {
        let (answer, state) = set_up(actor, b"R1");
        assert_eq!(answer, 0);
        let store = vec![FILL; length];
        Bench { state, store }
    }

    /// Sets the row of an actor.
    pub fn set_row(&mut self, actor: u8, base: u64, window: u64) {
        let at = 2 * (usize::from(actor) - 1);
        self.state.clock[at] = base;
        self.state.clock[at + 1] = window;
    }

    pub fn row(&self, actor: u8) -> (u64, u64) {
        let at = 2 * (usize::from(actor) - 1);
        (self.state.clock[at], self.state.clock[at + 1])
    }

    pub fn set_tombstone(&mut self, list: &[(u8, u64)]) {
        let bytes = dots(list);
        self.state.tombstone = State::zero().tombstone;
        self.state.tombstone[..bytes.len()].copy_from_slice(&bytes);
        self.state.count = list.len() as u64;
    }

    pub fn tombstone(&self) -> Vec<u8> {
        self.state.tombstone[..9 * self.state.count as usize].to_vec()
    }

    /// Puts key bytes in the store as its used part.
    pub fn set_used(&mut self, used: &[u8]) {
        self.store[..used.len()].copy_from_slice(used);
        self.state.used = used.len() as u64;
    }

    pub fn used(&self) -> &[u8] {
        &self.store[..self.state.used as usize]
    }

    /// Own add with an ample output; the message written.
    pub fn add(&mut self, label: &[u8], context: &[(u8, u64)]) -> (u8, Vec<u8>) {
        self.add_bytes(label, &dots(context), MESSAGE_ROOM)
    }

    pub fn add_bytes(&mut self, label: &[u8], context: &[u8], room: usize) -> (u8, Vec<u8>) {
        let before = self.clone();
        let mut out = vec![FILL; room];
        let done = own_add(&self.state, &mut self.store, label, context, &mut out);
        self.finish(&before, &done);
        (done.answer, written(&out, done.written))
    }

    pub fn remove(&mut self, context: &[(u8, u64)]) -> (u8, Vec<u8>) {
        self.remove_bytes(&dots(context), MESSAGE_ROOM)
    }

    pub fn remove_bytes(&mut self, context: &[u8], room: usize) -> (u8, Vec<u8>) {
        let before = self.clone();
        let mut out = vec![FILL; room];
        let done = own_remove(&self.state, &self.store, context, &mut out);
        self.finish(&before, &done);
        assert_eq!(self.store, before.store);
        (done.answer, written(&out, done.written))
    }

    pub fn take(&mut self, message: &[u8]) -> u8 {
        let before = self.clone();
        let done = take_in(&self.state, &mut self.store, message);
        assert_eq!(done.written, 0);
        self.finish(&before, &done);
        done.answer
    }

    pub fn compact(&mut self) -> u8 {
        let before = self.clone();
        let done = compact(&self.state, &mut self.store);
        assert_eq!(done.written, 0);
        self.finish(&before, &done);
        if done.answer == 0 {
            let freed = self.state.used as usize..before.state.used as usize;
            assert!(self.store[freed].iter().all(|b| *b == 0));
        }
        done.answer
    }

    /// Listing with an ample output (an entry is shorter than its keys): answer, bytes, number
    /// of labels.
    pub fn list(&self) -> (u8, Vec<u8>, u64) {
        let mut out = vec![FILL; self.store.len() + 9];
        let done = list(&self.state, &self.store, &mut out);
        let bytes = written(&out, done.written);
        (done.answer, bytes, done.labels)
    }

    /// A page in an output of this length; refused, it is empty and nothing follows.
    pub fn page(&self, start: &[u8], room: usize) -> (u8, Page) {
        let mut out = vec![FILL; room];
        let done = page(&self.state, &self.store, start, &mut out);
        let paged = Page {
            bytes: written(&out, done.written),
            labels: done.labels,
            more: done.more,
        };
        assert!(done.answer == 0 || paged == no_page());
        (done.answer, paged)
    }

    /// Merged read with another in an output of this length: answer, bytes, number of labels.
    pub fn merge_into(&self, other: &Bench, room: usize) -> (u8, Vec<u8>, u64) {
        let mut out = vec![FILL; room];
        let done = merge(
            &self.state,
            &self.store,
            &other.state,
            &other.store,
            &mut out,
        );
        assert!(done.answer == 0 || (done.written, done.labels) == (0, 0));
        let bytes = written(&out, done.written);
        (done.answer, bytes, done.labels)
    }

    /// The same with an ample output. It must not matter which of the two is first.
    pub fn merge(&self, other: &Bench) -> (u8, Vec<u8>, u64) {
        let room = self.store.len() + other.store.len() + 9;
        let merged = self.merge_into(other, room);
        assert_eq!(merged, other.merge_into(self, room));
        merged
    }

    /// Writes an image in an output of this length: answer and bytes.
    pub fn image_into(&self, room: usize) -> (u8, Vec<u8>) {
        let mut out = vec![FILL; room];
        let (answer, count) = write_image(&self.state, &self.store, &mut out);
        assert!(answer == 0 || count == 0);
        (answer, written(&out, count))
    }

    /// The same with an ample output.
    pub fn image(&self) -> (u8, Vec<u8>) {
        self.image_into(IMAGE_ROOM + self.store.len())
    }

    /// Loads an image into this store as this actor. Refused, it leaves the zero state.
    pub fn load(&mut self, actor: u8, image: &[u8]) -> u8 {
        let before = self.store.clone();
        let (answer, state) = load_image(actor, image, &mut self.store);
        self.state = state;
        let used = self.state.used as usize;
        assert_eq!(self.store[used..], before[used..]);
        assert!(answer == 0 || self.state == State::zero());
        answer
    }

    pub fn lookup(&self, label: &[u8]) -> Looked {
        lookup(&self.state, &self.store, label)
    }

    /// Takes over the new state and checks the bytes that the call must leave alone.
    fn finish(&mut self, before: &Bench, done: &Outcome) {
        self.state = done.state.clone();
        if done.answer != 0 {
            assert_eq!(self, before, "a refusal changes no state and no byte");
            assert_eq!(done.written, 0);
        } else {
            let top = before.state.used.max(self.state.used) as usize;
            assert_eq!(self.store[top..], before.store[top..]);
        }
    }
}

/// The bytes written; all the others must still hold the fill.
pub fn written(out: &[u8], count: u64) -> Vec<u8> {
    let (bytes, rest) = out.split_at(count as usize);
    assert!(
        rest.iter().all(|b| *b == FILL),
        "output past what is written"
    );
    bytes.to_vec()
}

/// A page of no entry that none follows.
pub fn no_page() -> Page {
    Page {
        bytes: Vec::new(),
        labels: 0,
        more: false,
    }
}

/// The label of the last entry of a listing or a page.
pub fn last_label(entries: &[u8]) -> Option<&[u8]> {
    let (mut rest, mut last) = (entries, None);
    while let [length, after @ ..] = rest {
        let (label, after) = after.split_at(usize::from(*length));
        let count = usize::from(u16::from_be_bytes([after[0], after[1]]));
        last = Some(label);
        rest = &after[2 + 9 * count..];
    }
    last
}

/// Nine bytes a dot, written by hand.
pub fn dots(list: &[(u8, u64)]) -> Vec<u8> {
    let mut bytes = Vec::new();
    for (actor, counter) in list {
        bytes.push(*actor);
        bytes.extend(counter.to_be_bytes());
    }
    bytes
}

/// A run of dots of one actor.
pub fn dots_of(actor: u8, counters: std::ops::RangeInclusive<u64>) -> Vec<(u8, u64)> {
    counters.map(|counter| (actor, counter)).collect()
}

/// An add message, written by hand; nothing is checked.
pub fn add_message(name: &[u8], label: &[u8], dot: (u8, u64), context: &[(u8, u64)]) -> Vec<u8> {
    let mut bytes = b"PTL\x00\x01a".to_vec();
    bytes.push(name.len() as u8);
    bytes.extend(name);
    bytes.push(label.len() as u8);
    bytes.extend(label);
    bytes.extend(dots(&[dot]));
    bytes.push(context.len() as u8);
    bytes.extend(dots(context));
    bytes
}

/// A remove message, written by hand; nothing is checked.
pub fn remove_message(name: &[u8], context: &[(u8, u64)]) -> Vec<u8> {
    let mut bytes = b"PTL\x00\x01r".to_vec();
    bytes.push(name.len() as u8);
    bytes.extend(name);
    bytes.push(context.len() as u8);
    bytes.extend(dots(context));
    bytes
}

/// The fields of an image after its kind, to be written by hand.
#[derive(Clone)]
pub struct ImageFields {
    pub name: Vec<u8>,
    pub actor: u8,
    /// Base and window of each actor in turn.
    pub rows: [(u64, u64); 16],
    pub tombstone: Vec<(u8, u64)>,
    pub keys: Vec<u8>,
}

impl ImageFields {
    /// Those of a box of set "R1" that has seen nothing.
    pub fn new(actor: u8) -> ImageFields {
        ImageFields {
            name: b"R1".to_vec(),
            actor,
            rows: [(0, 0); 16],
            tombstone: Vec::new(),
            keys: Vec::new(),
        }
    }

    /// Those of a box of actor 1 with three keys, two dots in its tombstone, and rows with a base, a
    /// window, and both. One label does not print.
    pub fn lived() -> ImageFields {
        let mut fields = ImageFields::new(1);
        fields.rows[0] = (2, 0);
        fields.rows[1] = (4, 0b110);
        fields.rows[4] = (0, 0b10);
        fields.tombstone = vec![(1, 2), (2, 6)];
        let keys = [
            key(b"B7", (1, 1)),
            key(b"B8", (1, 2)),
            key(b"C\x07", (5, 2)),
        ];
        fields.keys = keys.concat();
        fields
    }

    /// The image with its CRC; nothing is checked.
    pub fn bytes(&self) -> Vec<u8> {
        let mut bytes = b"PTL\x00\x01i".to_vec();
        bytes.push(self.name.len() as u8);
        bytes.extend(&self.name);
        bytes.push(self.actor);
        for (base, window) in self.rows {
            bytes.extend(base.to_be_bytes());
            bytes.extend(window.to_be_bytes());
        }
        bytes.push(self.tombstone.len() as u8);
        bytes.extend(dots(&self.tombstone));
        bytes.extend((self.keys.len() as u32).to_be_bytes());
        bytes.extend(&self.keys);
        with_crc(&bytes)
    }
}

/// Bytes with their CRC after them.
pub fn with_crc(bytes: &[u8]) -> Vec<u8> {
    [bytes, &crc32(bytes).to_be_bytes()].concat()
}

/// A label key of set "R1", written by hand.
pub fn key(label: &[u8], dot: (u8, u64)) -> Vec<u8> {
    let mut bytes = b"\x02\x01R1\x00e".to_vec();
    bytes.extend(label);
    bytes.extend([0, dot.0, 0]);
    bytes.extend(dot.1.to_be_bytes());
    bytes
}

/// One entry of a listing, written by hand.
pub fn entry(label: &[u8], list: &[(u8, u64)]) -> Vec<u8> {
    let mut bytes = vec![label.len() as u8];
    bytes.extend(label);
    bytes.extend((list.len() as u16).to_be_bytes());
    bytes.extend(dots(list));
    bytes
}

/// Xorshift generator of 64 bits; the seed must not be 0.
pub struct Xorshift(pub u64);

impl Xorshift {
    pub fn next(&mut self) -> u64 {
        self.0 ^= self.0 << 13;
        self.0 ^= self.0 >> 7;
        self.0 ^= self.0 << 17;
        self.0
    }

    /// A number below `limit`, which is at least 1.
    pub fn below(&mut self, limit: u64) -> u64 {
        (self.next() >> 11) % limit
    }

    /// True in about `percent` of a hundred cases.
    pub fn chance(&mut self, percent: u64) -> bool {
        self.below(100) < percent
    }

    /// One of the items.
    pub fn pick<'a, T>(&mut self, items: &'a [T]) -> &'a T {
        &items[self.below(items.len() as u64) as usize]
    }
}
