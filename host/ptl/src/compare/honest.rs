//! Holding a controller to the rule of demand 3: from its set-up on, or that of the writer of the image
//! that it loaded, as long as nobody else writes its state or used bytes and no two accepted adds give
//! one dot to different labels.

use super::trial::What;
use crate::rule::tell;
use crate::script::{Command, Poke, Rack, Reply, Tool};
use limits::{ACTOR_MAX, KEY_MAX, WINDOW};
use ptl::calls::{Listed, Paged};
use ptl::{Actor, Answer, State};
use reference::{write_key, Dot, KeyKind, Rule};
use std::collections::BTreeSet;

const OUTPUT_SHORT: u8 = Answer::OutputShort as u8;

/// The rule, with the set name for the bytes of keys.
#[derive(Clone)]
pub struct Honest {
    rule: Rule,
    name: Vec<u8>,
    /// Whether the controller has loaded an image.
    pub is_loaded: bool,
}

impl Honest {
    /// The rule at an accepted set-up.
    pub fn new(actor: u8, name: &[u8]) -> Honest {
        Honest {
            rule: Rule::new(actor),
            name: name.to_vec(),
            is_loaded: false,
        }
    }

    /// The rule at an accepted load, as this actor, of an image that a controller wrote of which this
    /// was the rule.
    pub fn handed_off(&self, actor: u8) -> Honest {
        Honest {
            rule: self.rule.handed_off(actor),
            name: self.name.clone(),
            is_loaded: true,
        }
    }

    /// Takes in a command with its reply. False if the rule speaks of this controller no more.
    pub fn goes_on(&mut self, command: &Command, reply: &Reply) -> bool {
        let accepted = reply.answer() == 0;
        !accepted || tell(&mut self.rule, command) && self.rule.has_one_label_a_dot()
    }

    /// Holds a merged read of two controllers, accepted or refused for its output, to the rule over
    /// all that either accepted. False if the rule does not speak of it.
    pub fn check_merged(&self, other: &Honest, reply: &Reply, out: &[u8]) -> Result<bool, What> {
        let both = self.rule.over_both(&other.rule);
        let Reply::Listed(listed) = reply else {
            return Ok(false);
        };
        let speaks = [0, OUTPUT_SHORT].contains(&listed.answer) && both.has_one_label_a_dot();
        if !speaks {
            return Ok(false);
        }
        let (bytes, labels) = both.listing();
        let told = match bytes.len() <= out.len() {
            true => (0, bytes.len(), labels as usize),
            false => (OUTPUT_SHORT, 0, 0),
        };
        let counts = (listed.answer, listed.written, listed.labels);
        match counts == told && bytes.starts_with(&out[..listed.written]) {
            true => Ok(true),
            false => Err("not what the rule of demand 3 says of both"),
        }
    }

    /// Holds an accepted listing, lookup or compaction to the rule, and a page that is accepted or
    /// refused for its output; the clock with it. False for any other call.
    pub fn check(
        &self,
        command: &Command,
        reply: &Reply,
        rack: &Rack,
        out: &[u8],
    ) -> Result<bool, What> {
        let is_short = matches!(reply, Reply::Paged(paged) if paged.answer == OUTPUT_SHORT);
        if reply.answer() != 0 && !is_short {
            return Ok(false);
        }
        let holds = match (command, reply) {
            (Command::List { .. }, Reply::Listed(listed)) => self.lists(listed, out),
            (Command::Page { start, .. }, Reply::Paged(paged)) => self.pages(start, paged, out),
            (Command::Lookup { label }, Reply::Looked(looked)) => {
                looked.listed == self.rule.has(label)
            }
            (Command::Compact, _) => {
                self.keys_left() == rack.store[..rack.used()] && rack.state.count() == 0
            }
            _ => return Ok(false),
        };
        if !holds {
            return Err("not what the rule of demand 3 says");
        }
        match seen(&rack.state, &self.rule) {
            true => Ok(true),
            false => Err("the clock does not see what the rule of demand 3 says"),
        }
    }

    fn lists(&self, listed: &Listed, out: &[u8]) -> bool {
        let (bytes, labels) = self.rule.listing();
        out.get(..listed.written) == Some(&bytes) && listed.labels as u64 == labels
    }

    /// A page of an output: the rule's listing after the start, cut where the output ends; refused
    /// exactly if the first entry left is cut.
    fn pages(&self, start: &[u8], paged: &Paged, out: &[u8]) -> bool {
        let Some(told) = self.rule.page(start, out.len()) else {
            return paged.answer == OUTPUT_SHORT;
        };
        let counts = (paged.answer, paged.labels as u64, paged.more);
        out.get(..paged.written) == Some(&told.bytes) && counts == (0, told.labels, told.more)
    }

    /// The keys that a compaction leaves.
    fn keys_left(&self) -> Vec<u8> {
        let mut keys = Vec::new();
        for (label, dot) in self.rule.live_pairs() {
            let mut key = [0; KEY_MAX];
            let (actor, counter) = (dot.actor.byte(), dot.counter.number());
            let (_, length) =
                write_key(KeyKind::Label, &self.name, &label, actor, counter, &mut key);
            keys.extend(&key[..length as usize]);
        }
        keys
    }
}

/// Whether a tool leaves the state and the used bytes as they were.
pub fn leaves(tool: &Tool, used: u64) -> bool {
    match tool {
        Tool::State | Tool::Store => true,
        Tool::Buffer { length, .. } => *length as u64 >= used,
        Tool::Poke { poke } => matches!(poke, Poke::Byte(offset, _) if *offset as u64 >= used),
    }
}

/// Whether the clock sees just the dots in either set of the rule.
fn seen(state: &State, rule: &Rule) -> bool {
    let told = rule.seen();
    let mut dots = BTreeSet::new();
    for actor in 1..=ACTOR_MAX {
        let (base, window) = (state.base(Actor(actor)), state.window(Actor(actor)));
        if base > told.len() as u64 {
            return false;
        }
        let above = (0..WINDOW).filter(|bit| window >> bit & 1 == 1);
        let events = (1..=base).chain(above.map(|bit| base + 1 + bit));
        dots.extend(events.filter_map(|event| Dot::new(actor, event)));
    }
    dots == told
}
