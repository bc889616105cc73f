//! One box: its working memory, its flash, and the rule of what it accepted.

use super::goods::SET;
use super::premise::Life;
use crate::engine::Engine;
use crate::rule::tell;
use crate::script::{Command, Rack, Reply, Worded};
use limits::{IMAGE_MAX, STORE_MAX};
use ptl::{Entry, Listing, State};
use reference::{Page, Rule};

/// The store that the first box starts with, how much longer that of each next one is, and by how
/// much a store grows that stays full.
const STORE: usize = 3072;
const STORE_MORE: usize = 512;
const STORE_STEP: usize = 1024;
/// A box writes an image after so many calls that it kept.
const IMAGE_EVERY: usize = 60;

/// What a power cut leaves: the block and the used bytes of the store, kept together. The messages
/// that the box wrote are kept with them (`Floor::posted`), so that they can be sent again.
#[derive(Clone)]
struct Flash {
    state: State,
    used: Vec<u8>,
}

/// A hand-off image that the office keeps, with what was true of its writer then.
struct Kept {
    image: Vec<u8>,
    flash: Flash,
    life: Life,
    rule: Rule,
    accepted: Vec<bool>,
}

pub struct Station {
    /// The rack that it serves, 0 and up for A and on.
    pub place: u8,
    memory: Rack,
    flash: Flash,
    /// The last image of the box, and the calls that it kept since.
    office: Option<Kept>,
    since_image: usize,
    /// The box as it is now, for the premise.
    pub life: Life,
    rule: Rule,
    /// By the message's number: whether it was accepted, in a call that was kept.
    accepted: Vec<bool>,
    /// Messages refused with 10 or 12, to be taken in again. In working memory only.
    pub later: Vec<usize>,
    /// Messages accepted since those were last tried.
    pub fresh: usize,
    /// The tick at which the power is back.
    pub off_until: u64,
    /// Whether a disagreement of this box was told.
    pub told: bool,
}

/// What a call gave.
pub struct Said {
    pub answer: u8,
    pub message: Vec<u8>,
}

impl Station {
    /// A box that has done nothing, to be set up or to load an image.
    fn new(place: u8, rule: Rule) -> Station {
        Station {
            place,
            memory: Rack::new(),
            flash: Flash {
                state: State::zero(),
                used: Vec::new(),
            },
            office: None,
            since_image: 0,
            life: Life::default(),
            rule,
            accepted: Vec::new(),
            later: Vec::new(),
            fresh: 0,
            off_until: 0,
            told: false,
        }
    }

    /// A box of this actor, set up and kept. The answer of the set-up comes with it.
    pub fn set_up(engine: &dyn Engine, actor: u8) -> (Station, u8) {
        let mut station = Station::new(actor.saturating_sub(1), Rule::new(actor));
        let name = SET.to_vec();
        let said = station.call(engine, &Command::Setup { actor, name });
        let length = STORE + STORE_MORE * usize::from(station.place);
        station.memory.lend(length, 0);
        station.keep();
        (station, said.answer)
    }

    pub fn rule(&self) -> &Rule {
        &self.rule
    }

    pub fn state(&self) -> &State {
        &self.memory.state
    }

    pub fn is_on(&self, tick: u64) -> bool {
        self.off_until <= tick
    }

    /// Makes a call in working memory.
    pub fn call(&mut self, engine: &dyn Engine, command: &Command) -> Said {
        let mut message = vec![0; command.out()];
        let reply = engine.run(&mut self.memory, command, &mut message);
        let written = match reply {
            Reply::Wrote(wrote) => wrote.written,
            _ => 0,
        };
        message.truncate(written);
        let answer = reply.answer();
        Said { answer, message }
    }

    /// Writes block and used store to flash, both.
    pub fn keep(&mut self) {
        self.flash.state = self.memory.state.clone();
        self.flash.used = self.used().to_vec();
        self.since_image += 1;
    }

    /// Whether it is time for an image.
    pub fn wants_image(&self) -> bool {
        self.since_image >= IMAGE_EVERY
    }

    /// Writes an image, which goes to the office; the answer.
    pub fn write_image(&mut self, engine: &dyn Engine) -> u8 {
        let mut image = vec![0; IMAGE_MAX];
        let reply = self.ask(engine, &Command::Image { out: IMAGE_MAX }, &mut image);
        if let Reply::Wrote(wrote) = reply {
            image.truncate(wrote.written);
        }
        if reply.answer() == 0 {
            self.office = Some(Kept {
                image,
                flash: self.flash.clone(),
                life: self.life,
                rule: self.rule.clone(),
                accepted: self.accepted.clone(),
            });
            self.since_image = 0;
        }
        reply.answer()
    }

    /// Calls kept since the last image; none if there is no image.
    pub fn age_of_image(&self) -> Option<usize> {
        self.office.as_ref().map(|_| self.since_image)
    }

    /// Whether a message was accepted before the last image.
    pub fn is_in_image(&self, number: usize) -> bool {
        let kept = self.office.as_ref();
        kept.is_some_and(|kept| kept.accepted.get(number) == Some(&true))
    }

    /// The box dies, with its flash, and another takes its place: it loads the last image as this
    /// actor, into a store as long. The answer, if there is an image.
    pub fn swap(&mut self, engine: &dyn Engine, actor: u8) -> Option<u8> {
        let kept = self.office.take()?;
        let mut station = Station::new(self.place, kept.rule.handed_off(actor));
        station.memory.lend(self.memory.store.len(), 0xDB);
        station.accepted = kept.accepted;
        let image = kept.image;
        let said = station.call(engine, &Command::Load { actor, image });
        station.keep();
        *self = station;
        Some(said.answer)
    }

    /// Own adds since the last image; none if there is no image.
    pub fn own_adds_since_image(&self) -> Option<u64> {
        let own_adds = |state: &State| state.base(state.actor());
        let then = own_adds(&self.office.as_ref()?.flash.state);
        Some(own_adds(self.state()).saturating_sub(then))
    }

    /// The box comes back as it was at its last image, under its own actor.
    pub fn put_back(&mut self, fill: u8, back: u64) {
        if let Some(kept) = self.office.take() {
            self.flash = kept.flash;
            self.life = kept.life;
            self.rule = kept.rule;
            self.accepted = kept.accepted;
            self.lose_power(fill, back);
        }
    }

    /// Whether working memory is what was kept.
    pub fn is_as_kept(&self) -> bool {
        self.flash.state == self.memory.state && self.flash.used == self.used()
    }

    /// The power fails: working memory is lost, and loaded from flash when the box is back. Past
    /// the used bytes the store then has any content.
    pub fn lose_power(&mut self, fill: u8, back: u64) {
        let room = self.memory.store.len();
        let mut store = self.flash.used.clone();
        store.resize(room, fill);
        let state = self.flash.state.clone();
        self.memory = Rack { state, store };
        self.later.clear();
        self.off_until = back;
    }

    /// Lends a longer store, up to the longest.
    pub fn lend_more(&mut self, fill: u8) {
        let length = (self.memory.store.len() + STORE_STEP).min(STORE_MAX);
        self.memory.lend(length, fill);
    }

    /// Tells the rule of an accepted call. False if no rule lets such a call be accepted.
    pub fn tell(&mut self, command: &Command) -> bool {
        tell(&mut self.rule, command)
    }

    pub fn accept(&mut self, number: usize) {
        if self.accepted.len() <= number {
            self.accepted.resize(number + 1, false);
        }
        self.accepted[number] = true;
    }

    /// The numbers of the messages that were accepted.
    pub fn accepted(&self) -> Vec<usize> {
        let numbers = 0..self.accepted.len();
        numbers.filter(|number| self.accepted[*number]).collect()
    }

    pub fn has_accepted(&self, number: usize) -> bool {
        self.accepted.get(number).copied().unwrap_or(false)
    }

    /// The used bytes of the store.
    pub fn used(&self) -> &[u8] {
        &self.memory.store[..self.memory.used()]
    }

    /// What the box lists; none if it refuses.
    pub fn listing(&self, engine: &dyn Engine) -> Option<Listing> {
        let out = self.memory.used();
        let mut bytes = vec![0; out];
        let reply = self.ask(engine, &Command::List { out }, &mut bytes);
        listing_of(reply, bytes).ok()
    }

    /// What the box and another list as one, in an output of this length; or the answer that
    /// refuses it.
    pub fn merged(&self, engine: &dyn Engine, other: &Station, out: usize) -> Result<Listing, u8> {
        let mut bytes = vec![0; out];
        let reply = engine.merge(&self.memory, &other.memory, &mut bytes);
        listing_of(reply, bytes)
    }

    /// A page of what the box lists, in an output of this length; or the answer that refuses it.
    pub fn page(&self, engine: &dyn Engine, start: &[u8], out: usize) -> Result<Page, u8> {
        let start = start.to_vec();
        let mut bytes = vec![0; out];
        match self.ask(engine, &Command::Page { start, out }, &mut bytes) {
            Reply::Paged(paged) if paged.answer == 0 => {
                bytes.truncate(paged.written);
                let (labels, more) = (paged.labels as u64, paged.more);
                Ok(Page {
                    bytes,
                    labels,
                    more,
                })
            }
            reply => Err(reply.answer()),
        }
    }

    /// Makes a call that only reads: on a copy of working memory.
    fn ask(&self, engine: &dyn Engine, command: &Command, out: &mut [u8]) -> Reply {
        engine.run(&mut self.memory.clone(), command, out)
    }

    pub fn entries(&self, engine: &dyn Engine) -> Vec<Entry> {
        let listing = self.listing(engine);
        listing.map_or(Vec::new(), |listing| listing.entries())
    }

    /// Whether the lamp of a label is lit.
    pub fn lights(&self, engine: &dyn Engine, label: &[u8]) -> bool {
        let label = label.to_vec();
        match self.ask(engine, &Command::Lookup { label }, &mut []) {
            Reply::Looked(looked) => looked.answer == 0 && looked.listed,
            _ => false,
        }
    }
}

/// The listing in an output; or the answer that refuses it.
fn listing_of(reply: Reply, mut bytes: Vec<u8>) -> Result<Listing, u8> {
    match reply {
        Reply::Listed(listed) if listed.answer == 0 => {
            bytes.truncate(listed.written);
            let labels = listed.labels;
            Ok(Listing { bytes, labels })
        }
        _ => Err(reply.answer()),
    }
}
