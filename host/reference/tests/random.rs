//! Demand 3 over random sequences: several controllers exchange messages that are shuffled,
//! repeated, lost and cut, and are swapped for others that load an image; after each call, calls and
//! rule are compared, and a merged read of two with the rule over both. Then everything that was sent
//! is delivered, and controllers that accepted the same messages must agree.
mod common;
use common::*;
use reference::limits::CONTEXT_DOTS_MAX;
use reference::*;
use std::collections::{BTreeMap, BTreeSet};

const LABELS: [&[u8]; 6] = [b"B7", b"B70", b"B8", b"A", &[b'~'; 32], b" "];
const NAME: &[u8] = b"R1";
/// Outputs of pages: too short for some entries, for one or two, for all.
const ROOMS: [usize; 3] = [25, 60, 20_000];
/// The actors that run as controllers; actor 9 only exists in stray messages.
const ACTORS: [u8; 4] = [1, 2, 7, 16];
const STRAY: u8 = 9;
/// The actors that controllers take which load an image, each once.
const FREE: [u8; 11] = [3, 4, 5, 6, 8, 10, 11, 12, 13, 14, 15];

/// How often each call gave each answer.
type Tally = BTreeMap<(&'static str, u8), u64>;

/// A controller, what the rule says of it, and the messages it accepted or wrote.
struct Node {
    bench: Bench,
    rule: Rule,
    accepted: BTreeSet<Vec<u8>>,
}

/// An image, with the rule of its writer and the messages that it had accepted or written by then.
#[derive(Clone)]
struct Kept {
    image: Vec<u8>,
    rule: Rule,
    accepted: BTreeSet<Vec<u8>>,
}

/// All controllers, all messages sent so far, and the calls' tally.
struct World {
    nodes: Vec<Node>,
    sent: Vec<Vec<u8>>,
    images: Vec<Kept>,
    free: Vec<u8>,
    random: Xorshift,
    /// True if contexts may name any dots and stray adds may come in.
    wild: bool,
    tally: Tally,
}

impl World {
    fn new(seed: u64, wild: bool) -> World {
        let node = |actor| Node {
            bench: Bench::with_store(actor, 0),
            rule: Rule::new(actor),
            accepted: BTreeSet::new(),
        };
        World {
            nodes: ACTORS.into_iter().map(node).collect(),
            sent: Vec::new(),
            images: Vec::new(),
            free: FREE.to_vec(),
            random: Xorshift(seed),
            wild,
            tally: Tally::new(),
        }
    }

    /// Gives the controller another buffer with the same used bytes: any length from there on,
    /// any content.
    fn lend(&mut self, at: usize) {
        let spare = if self.random.chance(6) {
            self.random.below(20)
        } else {
            100 + self.random.below(300)
        };
        let fill = self.random.next() as u8;
        let bench = &mut self.nodes[at].bench;
        bench.store.truncate(bench.state.used as usize);
        let length = bench.store.len() + spare as usize;
        bench.store.resize(length, fill);
    }

    /// One random call of one random controller, compared with the rule.
    fn step(&mut self) {
        let at = self.random.below(self.nodes.len() as u64) as usize;
        self.lend(at);
        match self.random.below(100) {
            0..=24 => self.own_add(at),
            25..=36 => self.own_remove(at),
            37..=41 => self.compact(at),
            42..=49 if self.wild => self.stray(at),
            50..=52 => self.write_image(at),
            53..=54 => self.swap(at),
            _ => self.deliver(at),
        }
        self.nodes[at].agrees();
        let other = self.random.below(self.nodes.len() as u64) as usize;
        self.merge(at, other);
    }

    /// Compares a merged read of two controllers with the rule over all that either accepted.
    fn merge(&mut self, at: usize, other: usize) {
        let (one, two) = (&self.nodes[at], &self.nodes[other]);
        let merged = one.bench.merge(&two.bench);
        let both = one.rule.over_both(&two.rule);
        let (bytes, labels) = both.listing();
        assert!(both.has_one_label_a_dot());
        assert_eq!(merged, (0, bytes, labels));
        let room = (merged.1.len() as u64).saturating_sub(self.random.below(3));
        let answer = one.bench.merge_into(&two.bench, room as usize).0;
        assert_eq!(answer == 0, room == merged.1.len() as u64);
        let what = match [one, two].map(|node| node.bench.list() == merged) {
            [false, false] => "merge, as neither lists",
            _ => "merge, as one lists",
        };
        *self.tally.entry((what, answer)).or_default() += 1;
    }

    /// The room of an output: ample, or now and then too short.
    fn room(&mut self) -> usize {
        if self.random.chance(5) {
            self.random.below(20) as usize
        } else {
            MESSAGE_ROOM
        }
    }

    /// A context: some of the dots listed, or in a wild run any dots at all.
    fn context(&mut self, at: usize, percent: u64) -> Vec<Dot> {
        let live = self.nodes[at].rule.live_pairs();
        let mut dots: BTreeSet<Dot> = live.iter().map(|(_, dot)| *dot).collect();
        dots.retain(|_| self.random.chance(percent));
        while self.wild && self.random.chance(40) {
            let actor = *self.random.pick(&[1, 2, 7, 16, STRAY]);
            let counter = 1 + self.random.below(75);
            dots.extend(Dot::new(actor, counter));
        }
        while dots.len() > CONTEXT_DOTS_MAX && self.random.chance(98) {
            dots.pop_last();
        }
        dots.into_iter().collect()
    }

    fn own_add(&mut self, at: usize) {
        let label = *self.random.pick(&LABELS);
        let context = self.context(at, 15);
        let room = self.room();
        let bytes: Vec<u8> = context.iter().flat_map(|dot| dot.bytes()).collect();
        let node = &mut self.nodes[at];
        let (answer, message) = node.bench.add_bytes(label, &bytes, room);
        *self.tally.entry(("own add", answer)).or_default() += 1;
        if answer == 0 {
            node.rule.own_add(label, &context);
            node.accepted.insert(message.clone());
            self.sent.push(message);
        }
    }

    fn own_remove(&mut self, at: usize) {
        let context = self.context(at, 25);
        let room = self.room();
        let bytes: Vec<u8> = context.iter().flat_map(|dot| dot.bytes()).collect();
        let node = &mut self.nodes[at];
        let (answer, message) = node.bench.remove_bytes(&bytes, room);
        *self.tally.entry(("own remove", answer)).or_default() += 1;
        if answer == 0 {
            node.rule.own_remove(&context);
            node.accepted.insert(message.clone());
            self.sent.push(message);
        }
    }

    fn compact(&mut self, at: usize) {
        let answer = self.nodes[at].bench.compact();
        *self.tally.entry(("compaction", answer)).or_default() += 1;
    }

    /// A controller writes an image, which is kept with what demand 3 says of it.
    fn write_image(&mut self, at: usize) {
        let node = &self.nodes[at];
        let (answer, image) = node.bench.image();
        assert_eq!(answer, 0);
        *self.tally.entry(("image", answer)).or_default() += 1;
        self.images.push(Kept {
            image,
            rule: node.rule.clone(),
            accepted: node.accepted.clone(),
        });
    }

    /// A controller dies, and another takes its place from any image, as an actor that none had. Now
    /// and then the image is cut on the way, or the store too short, and the controller stays.
    fn swap(&mut self, at: usize) {
        if self.images.is_empty() || self.free.is_empty() {
            return;
        }
        let mut kept = self.random.pick(&self.images).clone();
        if self.random.chance(20) {
            kept.image
                .truncate(self.random.below(kept.image.len() as u64) as usize);
        }
        let actor = self.free[0];
        let length = *self.random.pick(&[0, 100, 4000, 4000, 4000]);
        let mut bench = Bench::with_store(actor, length);
        let answer = bench.load(actor, &kept.image);
        *self.tally.entry(("load", answer)).or_default() += 1;
        if answer == 0 {
            self.free.remove(0);
            let (rule, accepted) = (kept.rule.handed_off(actor), kept.accepted);
            self.nodes[at] = Node {
                bench,
                rule,
                accepted,
            };
        }
    }

    /// Some message sent before, any number of times, never or late; now and then cut.
    fn deliver(&mut self, at: usize) {
        if self.sent.is_empty() {
            return;
        }
        let late = self.sent.len().saturating_sub(25);
        let from = if self.random.chance(60) { late } else { 0 };
        let mut message = self.random.pick(&self.sent[from..]).clone();
        if self.random.chance(8) {
            message.truncate(self.random.below(message.len() as u64) as usize);
        }
        self.take(at, &message);
    }

    /// An add of an actor that is no controller here; its label follows from its dot.
    fn stray(&mut self, at: usize) {
        let counter = 1 + self.random.below(70);
        let label = LABELS[counter as usize % LABELS.len()];
        let context = [(STRAY, counter + 1), (STRAY, counter + 2)];
        let some = self.random.below(3) as usize;
        let message = add_message(NAME, label, (STRAY, counter), &context[..some]);
        self.take(at, &message);
    }

    fn take(&mut self, at: usize, bytes: &[u8]) -> u8 {
        let node = &mut self.nodes[at];
        let answer = node.bench.take(bytes);
        *self.tally.entry(("taking in", answer)).or_default() += 1;
        if answer == 0 {
            let message = read_message(bytes).message.expect("accepted");
            node.rule.take_in(&message);
            node.accepted.insert(bytes.to_vec());
        }
        answer
    }

    /// Delivers every message to everybody, again and again while that still changes anything.
    fn deliver_all(&mut self) {
        let sent = self.sent.clone();
        loop {
            let mut progress = false;
            for at in 0..self.nodes.len() {
                for message in &sent {
                    if !self.nodes[at].accepted.contains(message) {
                        self.nodes[at].bench.store.resize(20_000, 0);
                        progress |= self.take(at, message) == 0;
                    }
                }
                self.nodes[at].agrees();
            }
            if !progress {
                return;
            }
        }
    }

    /// Compares the controllers that accepted the same messages; gives the number of pairs.
    fn compare_pairs(&self) -> u64 {
        let mut pairs = 0;
        for (at, one) in self.nodes.iter().enumerate() {
            for other in &self.nodes[at + 1..] {
                if one.accepted == other.accepted {
                    pairs += 1;
                    one.converged_with(other);
                }
            }
        }
        pairs
    }
}

impl Node {
    /// Compares state and store with the rule.
    fn agrees(&self) {
        let (bytes, labels) = self.rule.listing();
        assert_eq!(self.bench.list(), (0, bytes, labels));
        assert_eq!(seen(&self.bench.state), self.rule.seen());
        for label in LABELS {
            self.agrees_on(label);
        }
        for room in ROOMS {
            self.agrees_in_pages(room);
        }
        let mut next = self.bench.clone();
        assert_eq!(next.compact(), 0);
        let pairs = self.rule.live_pairs();
        let keys = pairs.iter().map(|(label, dot)| key_of(label, *dot));
        assert_eq!(next.used(), keys.collect::<Vec<_>>().concat());
        assert_eq!(next.state.count, 0);
        assert_eq!(next.list(), self.bench.list());
    }

    /// Pages from the front to the end: each is the rule's, and joined they are the listing.
    fn agrees_in_pages(&self, room: usize) {
        let (mut start, mut joined, mut labels) = (Vec::new(), Vec::new(), 0);
        loop {
            let (answer, page) = self.bench.page(&start, room);
            let told = self.rule.page(&start, room);
            assert_eq!(answer, if told.is_some() { 0 } else { 13 });
            assert_eq!(page, told.clone().unwrap_or_else(no_page));
            if told.is_none() {
                return;
            }
            joined.extend(&page.bytes);
            labels += page.labels;
            if !page.more {
                break;
            }
            start = last_label(&page.bytes).expect("at least one").to_vec();
        }
        assert_eq!((0, joined, labels), self.bench.list());
    }

    /// Lookup: the yes is the rule's, the stretch holds this label's keys and no others do.
    fn agrees_on(&self, label: &[u8]) {
        let looked = self.bench.lookup(label);
        assert_eq!((looked.answer, looked.listed), (0, self.rule.has(label)));
        let (start, end) = (looked.start as usize, looked.end as usize);
        let front = key(label, (0, 0))[..7 + label.len()].to_vec();
        let used = self.bench.used();
        let mut at = 0;
        while at < used.len() {
            let length = used[at + 6..].iter().position(|b| *b == 0).unwrap() + 17;
            let within = at >= start && at + length <= end;
            assert_eq!(used[at..].starts_with(&front), within);
            assert!(within || at + length <= start || at >= end);
            let order = used[at..at + length].cmp(&front);
            assert_eq!(order.is_lt(), at < start, "empty, at the place");
            at += length;
        }
    }

    fn converged_with(&self, other: &Node) {
        assert_eq!(self.bench.list(), other.bench.list());
        assert_eq!(self.bench.state.clock, other.bench.state.clock);
        let (mut one, mut two) = (self.bench.clone(), other.bench.clone());
        assert_eq!((one.compact(), two.compact()), (0, 0));
        assert_eq!(one.used(), two.used());
        let (mut first, second) = (one.state, two.state);
        first.actor = second.actor;
        assert_eq!(first, second);
    }
}

fn key_of(label: &[u8], dot: Dot) -> Vec<u8> {
    key(label, (dot.actor.byte(), dot.counter.number()))
}

/// The seen dots, read off base and window.
fn seen(state: &State) -> BTreeSet<Dot> {
    let mut dots = BTreeSet::new();
    for (actor, row) in (1..).zip(state.clock.chunks(2)) {
        let window = (0..64).filter(|i| row[1] >> i & 1 == 1);
        let events = (1..=row[0]).chain(window.map(|i| row[0] + 1 + i));
        dots.extend(events.filter_map(|event| Dot::new(actor, event)));
    }
    dots
}

/// Runs worlds of one sort; the tally, the pairs compared and the labels listed in the end.
fn run(wild: bool, worlds: u64, steps: u64) -> (Tally, u64, u64) {
    let mut tally = Tally::new();
    let (mut pairs, mut listed) = (0, 0);
    for seed in 1..=worlds {
        let mut world = World::new(seed.wrapping_mul(0x9E37_79B9_7F4A_7C15), wild);
        for _ in 0..steps {
            world.step();
        }
        world.deliver_all();
        pairs += world.compare_pairs();
        for node in &world.nodes {
            listed += node.rule.listing().1;
        }
        for (what, count) in world.tally {
            *tally.entry(what).or_default() += count;
        }
    }
    println!("{tally:?} pairs {pairs} listed {listed}");
    (tally, pairs, listed)
}

/// Checks that the run met all these answers of this call.
fn met(tally: &Tally, call: &'static str, answers: &[u8]) {
    for answer in answers {
        assert!(tally.contains_key(&(call, *answer)), "{call} {answer}");
    }
}

#[test]
fn honest_controllers() {
    let (tally, pairs, listed) = run(false, 30, 150);
    assert_eq!(pairs, 30 * 6, "all must have accepted the same in the end");
    assert!(listed > 100);
    assert!(tally[&("taking in", 0)] > 2000);
    assert!(tally[&("own add", 0)] > 500 && tally[&("own remove", 0)] > 300);
    met(&tally, "own add", &[0, 12, 13]);
    met(&tally, "own remove", &[0, 13]);
    met(&tally, "taking in", &[0, 2, 4, 12]);
    met(&tally, "compaction", &[0]);
    met(&tally, "load", &[0, 4, 12]);
    assert!(tally[&("image", 0)] > 60 && tally[&("load", 0)] > 30);
    met(&tally, "merge, as one lists", &[0, 13]);
    met(&tally, "merge, as neither lists", &[0, 13]);
    assert!(tally[&("merge, as neither lists", 0)] > 300);
}

#[test]
fn wild_controllers() {
    let (tally, _, listed) = run(true, 30, 200);
    assert!(listed > 100);
    assert!(tally[&("taking in", 0)] > 1500);
    met(&tally, "own add", &[0, 6, 8, 10, 12, 13]);
    met(&tally, "own remove", &[0, 8, 10, 13]);
    met(&tally, "taking in", &[0, 2, 4, 8, 10, 12]);
    met(&tally, "load", &[0, 4, 12]);
}

#[test]
fn long_run_to_a_full_tombstone() {
    let (tally, _, _) = run(false, 2, 1500);
    assert!(tally[&("taking in", 0)] > 1000);
    met(&tally, "taking in", &[0, 10, 11]);
}

#[test]
fn the_rule_tells_when_one_dot_has_two_labels() {
    let take_in = |rule: &mut Rule, label: &[u8], counter| {
        let add = Dot::new(STRAY, counter).map(|dot| (label.to_vec(), dot));
        let (name, context) = (NAME.to_vec(), Vec::new());
        rule.take_in(&Message { name, add, context });
        rule.has_one_label_a_dot()
    };
    let mut rule = Rule::new(ACTORS[0]);
    let adds: [(&[u8], u64); 3] = [(b"B7", 1), (b"B7", 1), (b"B8", 2)];
    assert!(adds.iter().all(|add| take_in(&mut rule, add.0, add.1)));
    assert!(!take_in(&mut rule, b"B8", 1));
    assert!(!take_in(&mut rule, b"B9", 3));
}
