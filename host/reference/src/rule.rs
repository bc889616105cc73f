//! "What demand 3 speaks of": the rule over a whole sequence of calls. It is told the
//! arguments of the accepted calls and knows nothing of clock, tombstone or store.

use crate::dot::{Actor, Dot};
use crate::message::Message;
use std::collections::{BTreeMap, BTreeSet};

/// The two sets of the rule, and the number of own adds accepted so far under each actor that the
/// controller had.
#[derive(Clone, PartialEq, Eq, Debug)]
pub struct Rule {
    actor: u8,
    own_adds: BTreeMap<u8, u64>,
    pairs: BTreeSet<(Vec<u8>, Dot)>,
    removed: BTreeSet<Dot>,
}

/// What the rule says of a page: its bytes, the number of its labels, whether more follow.
#[derive(Clone, PartialEq, Eq, Debug)]
pub struct Page {
    pub bytes: Vec<u8>,
    pub labels: u64,
    pub more: bool,
}

impl Rule {
    /// The rule at an accepted set-up of this actor: both sets empty.
    pub fn new(actor: u8) -> Rule {
        assert!(Actor::new(actor).is_some(), "set-up accepts no such actor");
        Rule {
            actor,
            own_adds: BTreeMap::new(),
            pairs: BTreeSet::new(),
            removed: BTreeSet::new(),
        }
    }

    /// The rule of a box that has loaded an image as this actor: its history is the writer's, of
    /// which this rule was told up to the image, and after that its own.
    pub fn handed_off(&self, actor: u8) -> Rule {
        assert!(Actor::new(actor).is_some(), "a load accepts no such actor");
        let mut handed = self.clone();
        handed.actor = actor;
        handed
    }

    /// An accepted own add. Its dot is the actor with the number of own adds accepted under it so
    /// far, this one included.
    pub fn own_add(&mut self, label: &[u8], context: &[Dot]) {
        let own_adds = self.own_adds.entry(self.actor).or_default();
        *own_adds += 1;
        let dot = Dot::new(self.actor, *own_adds);
        self.pairs.extend(dot.map(|dot| (label.to_vec(), dot)));
        self.removed.extend(context);
    }

    /// An accepted own remove.
    pub fn own_remove(&mut self, context: &[Dot]) {
        self.removed.extend(context);
    }

    /// An accepted message, already seen or not.
    pub fn take_in(&mut self, message: &Message) {
        self.pairs.extend(message.add.clone());
        self.removed.extend(&message.context);
    }

    /// The rule over all calls that either accepted. It is to be asked, and told of no call more.
    pub fn over_both(&self, other: &Rule) -> Rule {
        let mut both = self.clone();
        both.pairs.extend(other.pairs.clone());
        both.removed.extend(&other.removed);
        both
    }

    /// The proviso of demand 3: no two accepted adds gave one dot to different labels.
    pub fn has_one_label_a_dot(&self) -> bool {
        let dots: BTreeSet<Dot> = self.pairs.iter().map(|(_, dot)| *dot).collect();
        dots.len() == self.pairs.len()
    }

    /// The pairs not removed: what a compaction accepted next leaves in the store.
    pub fn live_pairs(&self) -> BTreeSet<(Vec<u8>, Dot)> {
        let mut live = self.pairs.clone();
        live.retain(|(_, dot)| !self.removed.contains(dot));
        live
    }

    /// The bytes of the listing and the number of its labels.
    pub fn listing(&self) -> (Vec<u8>, u64) {
        let entries = self.entries_after(&[]);
        (entries.concat(), entries.len() as u64)
    }

    /// The page after this label, or from the front if it is empty, in an output of so many bytes;
    /// none if a label is left and its entry does not fit.
    pub fn page(&self, start: &[u8], room: usize) -> Option<Page> {
        let entries = self.entries_after(start);
        let length = |number: usize| entries[..number].iter().map(Vec::len).sum::<usize>();
        let number = (0..=entries.len()).rfind(|number| length(*number) <= room)?;
        let more = number < entries.len();
        (number > 0 || !more).then(|| Page {
            bytes: entries[..number].concat(),
            labels: number as u64,
            more,
        })
    }

    /// The entries of the listing whose labels come after this one, in order.
    fn entries_after(&self, start: &[u8]) -> Vec<Vec<u8>> {
        let mut dots_of: BTreeMap<Vec<u8>, Vec<Dot>> = BTreeMap::new();
        for (label, dot) in self.live_pairs() {
            dots_of.entry(label).or_default().push(dot);
        }
        let after = dots_of.iter().filter(|(label, _)| label.as_slice() > start);
        after.map(|(label, dots)| entry(label, dots)).collect()
    }

    /// True if the listing has the label.
    pub fn has(&self, label: &[u8]) -> bool {
        self.live_pairs().iter().any(|(of, _)| of == label)
    }

    /// The dots that the clock sees: just those in either set.
    pub fn seen(&self) -> BTreeSet<Dot> {
        let added = self.pairs.iter().map(|(_, dot)| *dot);
        added.chain(self.removed.iter().copied()).collect()
    }
}

/// The bytes of a listed label.
fn entry(label: &[u8], dots: &[Dot]) -> Vec<u8> {
    let mut bytes = vec![label.len() as u8];
    bytes.extend(label);
    bytes.push((dots.len() / 256) as u8);
    bytes.push((dots.len() % 256) as u8);
    for dot in dots {
        bytes.push(dot.actor.byte());
        bytes.extend(dot.counter.number().to_be_bytes());
    }
    bytes
}
