//! How far the boxes agree with the rule over all messages, at any time.

use super::floor::Floor;
use super::station::Station;
use ptl::Entry;
use reference::Rule;
use std::collections::BTreeSet;

/// A look at all boxes is taken every so many calls.
const LOOK_EVERY: u64 = 40;

/// What a look at all boxes showed.
#[derive(Clone, Copy, PartialEq, Eq, Debug)]
pub struct Sample {
    /// Calls so far.
    pub calls: u64,
    /// Boxes whose listing is that of the rule over all messages so far.
    pub agree: usize,
    /// Labels that a box lists and the rule does not, or the other way round; of all boxes.
    pub wrong: usize,
}

impl Floor<'_> {
    /// For each box whether its listing is that of the rule over all messages.
    pub fn agreeing(&self) -> Vec<bool> {
        let (bytes, labels) = self.all.listing();
        let agrees = |station: &Station| {
            let listing = station.listing(self.engine);
            listing.is_some_and(|listing| listing.bytes == bytes && listing.labels as u64 == labels)
        };
        self.stations.iter().map(agrees).collect()
    }

    pub fn agree(&self) -> usize {
        self.agreeing().into_iter().filter(|agrees| *agrees).count()
    }

    /// Labels by which the boxes differ from the rule over all messages, one a box and label.
    fn wrong(&self) -> usize {
        let live = live_labels(&self.all);
        let wrong = |station: &Station| {
            let listed = labels_of(&station.entries(self.engine));
            listed.symmetric_difference(&live).count()
        };
        self.stations.iter().map(wrong).sum()
    }

    /// Looks at all boxes.
    pub fn look(&mut self) {
        let sample = Sample {
            calls: self.calls,
            agree: self.agree(),
            wrong: self.wrong(),
        };
        self.samples.push(sample);
    }

    /// Looks at all boxes, if it is time to.
    pub fn look_in_time(&mut self) {
        if self.calls.is_multiple_of(LOOK_EVERY) {
            self.look();
        }
    }

    /// The labels of these that the rule over all messages does not have.
    pub fn gone<'l>(&self, labels: impl IntoIterator<Item = &'l Vec<u8>>) -> Vec<&'l Vec<u8>> {
        let live = live_labels(&self.all);
        let labels = labels.into_iter();
        labels.filter(|label| !live.contains(*label)).collect()
    }

    /// How many boxes light one of these labels.
    pub fn lighting(&self, labels: &[&Vec<u8>]) -> usize {
        let lights = |station: &&Station| {
            let mut labels = labels.iter();
            labels.any(|label| station.lights(self.engine, label))
        };
        self.stations.iter().filter(lights).count()
    }
}

/// The labels of a listing.
pub fn labels_of(entries: &[Entry]) -> BTreeSet<Vec<u8>> {
    entries.iter().map(|entry| entry.label.0.clone()).collect()
}

/// The labels that a rule lists.
pub fn live_labels(rule: &Rule) -> BTreeSet<Vec<u8>> {
    let pairs = rule.live_pairs().into_iter();
    pairs.map(|(label, _)| label).collect()
}
