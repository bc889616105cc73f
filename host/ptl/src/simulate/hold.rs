//! Holding boxes to the rules: each to that of the calls it accepted, all to that of all messages.

use super::agreement::live_labels;
use super::floor::Floor;
use super::goods::{part_and_bin, BOXES, WATCHED};
use super::premise::Pair;
use super::station::Station;
use crate::engine::Engine;
use limits::ACTOR_MAX;
use ptl::{Actor, Entry, Listing};
use reference::{Dot, Rule};
use std::collections::BTreeSet;

impl Floor<'_> {
    /// Whether a box's listing is that of the rule of the calls that it accepted.
    pub fn follows_its_rule(&self, at: usize) -> bool {
        let station = &self.stations[at];
        difference(self.engine, station, station.rule()).is_none()
    }

    /// Holds a box's listing to the rule of the calls that it accepted.
    pub fn hold(&mut self, at: usize) {
        let station = &self.stations[at];
        if let Some(what) = difference(self.engine, station, station.rule()) {
            self.fault(at, format!("{what}, by the rule of what it accepted"));
        }
    }

    /// Holds every box's listing and lamps to its rule, its pages to its listing, and what it lists
    /// together with the next to the rule of both.
    pub fn hold_all(&mut self) {
        for at in 0..BOXES {
            self.hold(at);
            self.hold_lamps(at);
            self.hold_pages(at);
            self.hold_together(at);
        }
    }

    /// Holds the lamps of the parts that the table shows.
    fn hold_lamps(&mut self, at: usize) {
        let station = &self.stations[at];
        let listed = live_labels(station.rule());
        let wrong = self.labels.iter().find(|label| {
            is_watched(label) && station.lights(self.engine, label) != listed.contains(*label)
        });
        if let Some(label) = wrong {
            let label = text(label);
            self.fault(at, format!("the lamp of {label} is wrong"));
        }
    }

    /// Holds a box's listing to the rule over all messages.
    pub fn hold_to_all(&mut self, at: usize) {
        if let Some(what) = difference(self.engine, &self.stations[at], &self.all) {
            self.fault(at, format!("{what}, by the rule over all messages"));
        }
    }

    /// After the last compaction: all boxes have seen the same and hold the same keys and the same
    /// tombstone.
    pub fn hold_alike(&mut self) {
        for at in 1..BOXES {
            let (first, other) = (&self.stations[0], &self.stations[at]);
            let alike = first.used() == other.used()
                && clock(first) == clock(other)
                && first.state().tombstone() == other.state().tombstone();
            if !alike {
                self.fault(at, "keys, clock or tombstone are not those of box 1".into());
            }
        }
    }
}

/// What a box lists and should not, or the other way round; none if it lists what the rule says.
fn difference(engine: &dyn Engine, station: &Station, rule: &Rule) -> Option<String> {
    differs(station.listing(engine), rule)
}

/// The same of a listing, if there is one.
pub fn differs(listing: Option<Listing>, rule: &Rule) -> Option<String> {
    let Some(listing) = listing else {
        return Some("refuses to list".into());
    };
    let (bytes, labels) = rule.listing();
    if listing.bytes == bytes && listing.labels as u64 == labels {
        return None;
    }
    let listed = pairs(&listing.entries());
    let told = rule.live_pairs();
    let more = listed.difference(&told).next();
    let less = told.difference(&listed).next();
    Some(match (more, less) {
        (Some(pair), _) => format!("lists {} and should not", pair_text(pair)),
        (None, Some(pair)) => format!("does not list {} and should", pair_text(pair)),
        (None, None) => "lists the right labels in other bytes".into(),
    })
}

/// Label and dot of each key of a listing.
pub fn pairs(entries: &[Entry]) -> BTreeSet<Pair> {
    let dots = |entry: &Entry| {
        let dots = entry.dots.iter();
        let dots = dots.filter_map(|dot| Dot::new(dot.actor.0, dot.counter.0));
        let label = entry.label.0.clone();
        dots.map(|dot| (label.clone(), dot)).collect::<Vec<_>>()
    };
    entries.iter().flat_map(dots).collect()
}

fn clock(station: &Station) -> Vec<(u64, u64)> {
    let state = station.state();
    let actors = (1..=ACTOR_MAX).map(Actor);
    actors
        .map(|actor| (state.base(actor), state.window(actor)))
        .collect()
}

fn is_watched(label: &[u8]) -> bool {
    part_and_bin(label).is_some_and(|(part, _)| WATCHED.contains(&part))
}

fn text(label: &[u8]) -> String {
    label.escape_ascii().to_string()
}

pub fn pair_text((label, dot): &Pair) -> String {
    let (actor, counter) = (dot.actor.byte(), dot.counter.number());
    format!("{} (dot {actor}:{counter})", text(label))
}
