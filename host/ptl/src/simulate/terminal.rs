//! A hand terminal, which has room for a few labels: it goes from box to box and reads listings in
//! pages, while the boxes work. Each page is held to the rule of what its box has accepted by then.

use super::floor::Floor;
use super::goods::BOXES;
use super::station::Station;
use crate::engine::Engine;
use crate::random::Random;
use limits::STORE_MAX;
use ptl::{Answer, Listing, State};
use reference::Page;

/// Bytes that terminals have room for. In the shortest a label with two dots does not fit.
const ROOMS: [usize; 3] = [24, 96, 256];
/// Ticks in a hundred at which a page is read.
const READS: usize = 40;

const OUTPUT_SHORT: u8 = Answer::OutputShort as u8;

/// The terminal, the listing that it is reading, and what it has read so far.
pub struct Terminal {
    random: Random,
    /// The box, the label that the next page starts after, and the room for it.
    at: usize,
    start: Vec<u8>,
    room: usize,
    /// The state of the box at the first page of the listing.
    first: Option<State>,
    pub counts: Counts,
}

/// What a terminal has read.
#[derive(Clone, Copy, PartialEq, Eq, Debug, Default)]
pub struct Counts {
    pub pages: u64,
    /// Pages refused for their room, and read again with twice as much.
    pub short: u64,
    /// Listings read to their end, and those of them whose box changed between their pages.
    pub listings: u64,
    pub changed: u64,
}

impl Terminal {
    /// A terminal with random numbers of its own: the day is the same without it.
    pub fn new(seed: u64) -> Terminal {
        let mut terminal = Terminal {
            random: Random::new(!seed),
            at: 0,
            start: Vec::new(),
            room: 0,
            first: None,
            counts: Counts::default(),
        };
        terminal.walk_on();
        terminal
    }

    /// Goes to a box, to read its listing from the front.
    fn walk_on(&mut self) {
        self.at = self.random.below(BOXES);
        self.start.clear();
        self.room = self.random.pick(&ROOMS);
        self.first = None;
    }

    /// Takes in a page of its box, or a refusal; the box is in this state.
    fn take(&mut self, page: Result<Page, u8>, state: &State) {
        let page = match page {
            Ok(page) => page,
            Err(OUTPUT_SHORT) if self.room < STORE_MAX => {
                self.counts.short += 1;
                self.room *= 2;
                return;
            }
            Err(_) => return self.walk_on(),
        };
        self.counts.pages += 1;
        let first = self.first.get_or_insert_with(|| state.clone());
        match next_start(&page) {
            Some(label) => self.start = label,
            None => {
                self.counts.listings += 1;
                self.counts.changed += u64::from(first != state);
                self.walk_on();
            }
        }
    }
}

impl Floor<'_> {
    /// The terminal reads its next page, if it is time to. It leaves a box that has no power.
    pub fn use_terminal(&mut self) {
        let at = self.terminal.at;
        if !self.terminal.random.chance(READS) {
            return;
        }
        if !self.is_on(at) {
            return self.terminal.walk_on();
        }
        let (station, terminal) = (&self.stations[at], &mut self.terminal);
        let page = station.page(self.engine, &terminal.start, terminal.room);
        let told = station.rule().page(&terminal.start, terminal.room);
        let agrees = page == told.ok_or(OUTPUT_SHORT);
        terminal.take(page, station.state());
        if !agrees {
            self.fault(
                at,
                "gives another page, by the rule of what it accepted".into(),
            );
        }
    }

    /// Holds all pages of a box, read with nothing between them, to its listing.
    pub fn hold_pages(&mut self, at: usize) {
        let (station, room) = (&self.stations[at], self.terminal.random.pick(&ROOMS));
        if joined(self.engine, station, room) != station.listing(self.engine) {
            self.fault(at, "its pages joined are not its listing".into());
        }
    }
}

/// The pages of a box from the front to the end, joined. None if it refuses one for another reason
/// than its room, or if one starts no later than the one before.
fn joined(engine: &dyn Engine, station: &Station, mut room: usize) -> Option<Listing> {
    let (mut bytes, mut labels, mut start) = (Vec::new(), 0, Vec::new());
    loop {
        let page = match station.page(engine, &start, room) {
            Ok(page) => page,
            Err(OUTPUT_SHORT) if room < STORE_MAX => {
                room *= 2;
                continue;
            }
            Err(_) => return None,
        };
        bytes.extend(&page.bytes);
        labels += page.labels as usize;
        match next_start(&page) {
            None => return Some(Listing { bytes, labels }),
            Some(label) if label > start => start = label,
            Some(_) => return None,
        }
    }
}

/// The label after which the next page starts.
fn next_start(page: &Page) -> Option<Vec<u8>> {
    let page = ptl::Page {
        bytes: &page.bytes,
        labels: page.labels as usize,
        more: page.more,
    };
    page.next_start().map(|label| label.0)
}
