//! An engine with one fault put in, for the tests of what must find it.

use super::Engine;
use crate::script::{Command, Rack, Reply};
use limits::{ACTOR_MAX, CRC_SIZE, MESSAGE_HEAD, PRINT_MAX, TOMBSTONE_DOTS_MAX, WINDOW};
use ptl::calls::Wrote;
use ptl::{Actor, Answer, Dot, State};
use std::cell::Cell;

/// What an engine does wrong.
#[derive(Clone, Copy, PartialEq, Eq, Debug)]
pub enum Fault {
    /// The last dot that a tombstone has room for is refused.
    TombstoneOneShort,
    /// A key that fills the store exactly is refused.
    StoreOneShort,
    /// The first freed byte of a compaction is not set to 0.
    FreedByteKept,
    /// A byte is written after the listing.
    ListingRunsOn,
    /// A byte is written after a page that more follow.
    PageRunsOn,
    /// A page that more follow says that it is the last.
    PageEndsEarly,
    /// A page that fills its output exactly is cut shorter or refused.
    PageOneShort,
    /// A label all of whose dots are removed is looked up as listed.
    DeadLabelListed,
    /// An own add takes the byte after the last that prints for that one.
    OnePastPrints,
    /// A label that does not print is looked up as one that breaks its rule.
    UnprintedNotFound,
    /// A merged read lists what the first controller lists.
    MergeOfOne,
    /// A merged read does not heed the removes that the second controller has not compacted yet.
    MergeForgetsRemoves,
    /// A merged read that fills its output exactly is refused.
    MergeOneShort,
    /// A byte is written after a merged read.
    MergeRunsOn,
    /// An image is written without the tombstone's dots.
    ImageForgetsRemoves,
    /// A wrong CRC is taken for a right one.
    ChecksumUnread,
    /// A box that loads an image keeps the writer's actor.
    LoadKeepsWriter,
    /// The store past the loaded keys is set to 0.
    LoadClearsRest,
    /// A shift of the window by its whole width leaves it as it was.
    WholeShiftLost,
    /// A message with bytes left over is read.
    LeftOverRead,
    /// Compaction answers 13 where it should answer 1.
    OtherAnswer,
    /// Bytes that are no message are accepted.
    NoiseAccepted,
    /// A message with a context is never accepted.
    RemovesRefused,
    /// A message that is too far ahead is refused, but not without a trace.
    RefusalChanges,
    /// Now and then a removed dot falls out of the tombstone.
    RemovedDotDropped,
    /// Now and then a message is accepted, and nothing is kept of it.
    MessageForgotten,
    /// Now and then a remove is taken in that no call brought, so that the rule misses it.
    MessageUntold,
    /// Now and then compaction drops a key that is not removed.
    LiveKeyDropped,
    /// Compaction takes only the dots of dropped keys out of the tombstone.
    KeylessDotsStay,
    /// Now and then an own add answers 8, as if the box had lost its memory.
    MemoryLost,
}

/// A sound engine with one fault put in.
pub struct Faulty<'a> {
    sound: &'a dyn Engine,
    fault: Fault,
    /// How often a fault that comes now and then could have come.
    chances: Cell<u64>,
}

impl<'a> Faulty<'a> {
    pub fn new(sound: &'a dyn Engine, fault: Fault) -> Faulty<'a> {
        let chances = Cell::new(0);
        Faulty {
            sound,
            fault,
            chances,
        }
    }

    fn has(&self, fault: Fault) -> bool {
        self.fault == fault
    }

    /// True at every so many chances, if it is this fault.
    fn strikes(&self, fault: Fault, every: u64) -> bool {
        self.has(fault) && {
            self.chances.set(self.chances.get() + 1);
            self.chances.get().is_multiple_of(every)
        }
    }

    fn own_add(&self, rack: &mut Rack, command: &Command, out: &mut [u8]) -> Reply {
        if self.strikes(Fault::MemoryLost, 200) {
            return refused(Answer::OwnAhead);
        }
        let full = rack.state.used() >= rack.store.len() as u64;
        let last = match self.has(Fault::StoreOneShort) && !full {
            true => rack.store.pop(),
            false => None,
        };
        let command = match self.has(Fault::OnePastPrints) {
            true => &printing(command),
            false => command,
        };
        let reply = self.sound.run(rack, command, out);
        rack.store.extend(last);
        reply
    }

    fn own_remove(&self, rack: &mut Rack, command: &Command, out: &mut [u8]) -> Reply {
        let (before, kept) = (rack.state.clone(), out.to_vec());
        let reply = self.sound.run(rack, command, out);
        let full = TOMBSTONE_DOTS_MAX as u64;
        let filled = before.count() < full && rack.state.count() == full;
        if !(filled && self.has(Fault::TombstoneOneShort)) {
            return reply;
        }
        rack.state = before;
        out.copy_from_slice(&kept);
        refused(Answer::TombstoneFull)
    }

    fn compact(&self, rack: &mut Rack) -> Reply {
        let before = rack.clone();
        let reply = self.sound.run(rack, &Command::Compact, &mut []);
        let Rack { state, store } = rack;
        let after = state.used();
        if self.has(Fault::FreedByteKept) && after < before.state.used() {
            store[after as usize] = 2;
        }
        if self.has(Fault::KeylessDotsStay) && reply.answer() == 0 {
            put_back(state, &keyless(&before));
        }
        if self.strikes(Fault::LiveKeyDropped, 10) {
            let key = [b"\x02\x01", state.name(), b"\x00e"].concat();
            let used = &store[..after as usize];
            let last = used.windows(key.len()).rposition(|bytes| bytes == key);
            state.set_used(last.map_or(after, |last| last as u64));
        }
        match Answer::of_number(reply.answer()) {
            Some(Answer::Damaged) if self.has(Fault::OtherAnswer) => {
                Reply::Answered(Answer::OutputShort.number())
            }
            _ => reply,
        }
    }

    fn write_image(&self, rack: &mut Rack, command: &Command, out: &mut [u8]) -> Reply {
        let mut rack = rack.clone();
        if self.has(Fault::ImageForgetsRemoves) {
            forget_removes(&mut rack.state);
        }
        self.sound.run(&mut rack, command, out)
    }

    fn load(&self, rack: &mut Rack, actor: u8, image: &[u8]) -> Reply {
        let image = match self.has(Fault::ChecksumUnread) {
            true => with_crc(image),
            false => image.to_vec(),
        };
        let writer = image.get(actor_at(&image)).copied().map(Actor);
        let load = Command::Load { actor, image };
        let reply = self.sound.run(rack, &load, &mut []);
        if let (0, Some(writer), true) = (reply.answer(), writer, self.has(Fault::LoadKeepsWriter))
        {
            rack.state.set_actor(writer);
        }
        if self.has(Fault::LoadClearsRest) && reply.answer() == 0 {
            let used = rack.used();
            rack.store[used..].fill(0);
        }
        reply
    }

    /// Merged read.
    fn merged(&self, first: &Rack, second: &Rack, out: &mut [u8]) -> Reply {
        if self.has(Fault::MergeOfOne) {
            return self.sound.merge(first, first, out);
        }
        let mut second = second.clone();
        if self.has(Fault::MergeForgetsRemoves) {
            forget_removes(&mut second.state);
        }
        let room = match self.has(Fault::MergeOneShort) {
            true => out.len().saturating_sub(1),
            false => out.len(),
        };
        let reply = self.sound.merge(first, &second, &mut out[..room]);
        match reply {
            Reply::Listed(listed) if self.has(Fault::MergeRunsOn) && listed.labels > 0 => {
                run_on(listed.written, out);
            }
            _ => (),
        }
        reply
    }

    /// What is wrong with a reply of a call that changes nothing.
    fn spoil(&self, reply: &mut Reply, out: &mut [u8]) {
        match reply {
            Reply::Listed(listed) if self.has(Fault::ListingRunsOn) && listed.labels > 0 => {
                run_on(listed.written, out);
            }
            Reply::Paged(paged) if self.has(Fault::PageRunsOn) && paged.more => {
                run_on(paged.written, out);
            }
            Reply::Paged(paged) => paged.more &= !self.has(Fault::PageEndsEarly),
            Reply::Looked(looked) => {
                looked.listed |= self.has(Fault::DeadLabelListed) && looked.found.len > 0;
            }
            _ => (),
        }
    }

    fn read_message(&self, rack: &mut Rack, bytes: &[u8]) -> Reply {
        let read = |rack: &mut Rack, bytes: &[u8]| {
            let bytes = bytes.to_vec();
            self.sound
                .run(rack, &Command::ReadMessage { bytes }, &mut [])
        };
        let reply = read(rack, bytes);
        let left_over = reply.answer() == Answer::BadShape.number();
        match bytes {
            [front @ .., _] if self.has(Fault::LeftOverRead) && left_over => read(rack, front),
            _ => reply,
        }
    }

    /// Taking in; the answer.
    fn taken_in(&self, rack: &mut Rack, command: &Command) -> u8 {
        let before = rack.clone();
        let answer = self.sound.run(rack, command, &mut []).answer();
        match Answer::of_number(answer) {
            Some(Answer::Done) => self.after_accepting(before, rack),
            Some(Answer::BadShape) if self.has(Fault::NoiseAccepted) => Answer::Done.number(),
            Some(Answer::TooFar) if self.has(Fault::RefusalChanges) => {
                let count = rack.state.count().saturating_sub(1);
                rack.state.set_count(count);
                answer
            }
            _ => answer,
        }
    }

    /// What is wrong after an accepted message. The answer.
    fn after_accepting(&self, before: Rack, rack: &mut Rack) -> u8 {
        let state = &mut rack.state;
        let refused = self.has(Fault::RemovesRefused) && state.count() > before.state.count();
        if self.has(Fault::WholeShiftLost) {
            keep_shifted_windows(&before.state, state);
        }
        if self.strikes(Fault::RemovedDotDropped, 50) {
            let last = state.count().saturating_sub(1);
            state.set_slot(last as usize, Dot::from((0, 0)));
            state.set_count(last);
        }
        if self.strikes(Fault::MessageUntold, 1000) {
            let remove = b"PTL\x00\x01r\x05RACKS\x01\x01\x00\x00\x00\x00\x00\x00\x00\x01";
            self.sound.take_in(rack, remove);
        }
        if refused || self.strikes(Fault::MessageForgotten, 100) {
            *rack = before;
        }
        match refused {
            true => Answer::TooFar.number(),
            false => Answer::Done.number(),
        }
    }
}

/// An own add with the last byte that prints in place of the one after it.
fn printing(command: &Command) -> Command {
    let mut command = command.clone();
    if let Command::Add { label, .. } = &mut command {
        let past = label.iter_mut().filter(|byte| **byte == PRINT_MAX + 1);
        past.for_each(|byte| *byte = PRINT_MAX);
    }
    command
}

/// The dots of a tombstone that no key in the used part has.
fn keyless(rack: &Rack) -> Vec<Dot> {
    let used = &rack.store[..rack.used()];
    let mut dots = rack.state.tombstone();
    dots.retain(|dot| {
        let tail = [&[0, dot.actor.0, 0], &dot.counter.0.to_be_bytes()[..]].concat();
        !used.windows(tail.len()).any(|bytes| bytes == tail)
    });
    dots
}

/// Puts dots into an empty tombstone.
fn put_back(state: &mut State, dots: &[Dot]) {
    for (slot, dot) in dots.iter().enumerate() {
        state.set_slot(slot, *dot);
    }
    state.set_count(dots.len() as u64);
}

/// Where the writer's actor stands in an image.
fn actor_at(image: &[u8]) -> usize {
    let name = image.get(MESSAGE_HEAD - 1).copied();
    MESSAGE_HEAD + usize::from(name.unwrap_or_default())
}

/// An image with a right CRC in place of its own.
fn with_crc(image: &[u8]) -> Vec<u8> {
    let (body, _) = image.split_at(image.len().saturating_sub(CRC_SIZE));
    [body, &reference::crc32(body).to_be_bytes()].concat()
}

/// Writes a byte after these.
fn run_on(written: usize, out: &mut [u8]) {
    if let Some(byte) = out.get_mut(written) {
        *byte = 0;
    }
}

/// Empties the tombstone.
fn forget_removes(state: &mut State) {
    for slot in 0..TOMBSTONE_DOTS_MAX {
        state.set_slot(slot, Dot::from((0, 0)));
    }
    state.set_count(state.count().saturating_sub(TOMBSTONE_DOTS_MAX as u64));
}

/// Puts back the windows that a call has shifted by their whole width.
fn keep_shifted_windows(before: &State, state: &mut State) {
    for actor in (1..=ACTOR_MAX).map(Actor) {
        if state.base(actor) - before.base(actor) == WINDOW {
            state.set_window(actor, before.window(actor));
        }
    }
}

fn refused(answer: Answer) -> Reply {
    Reply::Wrote(Wrote {
        answer: answer.number(),
        written: 0,
    })
}

impl Engine for Faulty<'_> {
    fn name(&self) -> &'static str {
        "faulty"
    }

    fn merge(&self, first: &Rack, second: &Rack, out: &mut [u8]) -> Reply {
        self.merged(first, second, out)
    }

    fn run(&self, rack: &mut Rack, command: &Command, out: &mut [u8]) -> Reply {
        match command {
            Command::Add { .. } => self.own_add(rack, command, out),
            Command::Remove { .. } => self.own_remove(rack, command, out),
            Command::Take { .. } => Reply::Answered(self.taken_in(rack, command)),
            Command::Compact => self.compact(rack),
            Command::Image { .. } => self.write_image(rack, command, out),
            Command::Load { actor, image } => self.load(rack, *actor, image),
            Command::ReadMessage { bytes } => self.read_message(rack, bytes),
            Command::Lookup { label }
                if self.has(Fault::UnprintedNotFound) && label.iter().any(|b| *b > PRINT_MAX) =>
            {
                let label = Vec::new();
                self.sound.run(rack, &Command::Lookup { label }, out)
            }
            Command::Page { .. } if self.has(Fault::PageOneShort) => {
                let short = out.len().saturating_sub(1);
                self.sound.run(rack, command, &mut out[..short])
            }
            _ => {
                let mut reply = self.sound.run(rack, command, out);
                self.spoil(&mut reply, out);
                reply
            }
        }
    }
}
