//! Controllers of one set that make random calls and exchange messages, which are lost, repeated,
//! shuffled, cut and garbled. Now and then one is swapped for another, which loads an image.

use crate::common::{add_message, dots, key, remove_message, Xorshift, LARGEST};
use crate::images::IMAGE;
use crate::recording::{Node, Recording, Reply, AMPLE, CONTROLLERS};
use reference::limits::CONTEXT_DOTS_MAX;

const LABELS: [&[u8]; 6] = [b"B7", b"B70", b"B8", b"A", &[b'~'; 32], b" "];
/// Labels that break their rule, and some that do not print.
const BAD_LABELS: [&[u8]; 7] = [
    b"", b"B\x007", &[66; 33], b"\x00", b"\x01", b"B\x7F", &[255; 32],
];
const NAMES: [&[u8]; 3] = [b"R1", b"RACK-NORTH-AISLE", b"\xff"];
/// Counters at which a rule changes its mind.
const COUNTERS: [u64; 12] = [1, 2, 3, 62, 63, 64, 65, 66, 128, 0, LARGEST - 1, LARGEST];
/// The longest store that is lent.
const STORE: usize = 400;

/// Controllers of one set, and all messages that they sent so far.
pub struct World<'a> {
    recording: &'a mut Recording,
    name: &'static [u8],
    actors: Vec<u8>,
    sent: Vec<Vec<u8>>,
    images: Vec<Vec<u8>>,
    /// Contexts, labels, messages and states may break rules.
    wild: bool,
}

impl World<'_> {
    pub fn new<'a>(recording: &'a mut Recording, random: &mut Xorshift, wild: bool) -> World<'a> {
        let name = *random.pick(&NAMES);
        let mut actors = Vec::new();
        while actors.len() < CONTROLLERS + 1 {
            let actor = 1 + random.below(16) as u8;
            if !actors.contains(&actor) {
                actors.push(actor);
            }
        }
        recording.note(match wild {
            false => "Four controllers and a bad radio",
            true => "Four controllers and a bad radio, rules broken",
        });
        for (at, actor) in actors[..CONTROLLERS].iter().enumerate() {
            recording.start(at, *actor, name, STORE);
        }
        World {
            recording,
            name,
            actors,
            sent: Vec::new(),
            images: Vec::new(),
            wild,
        }
    }

    /// Random calls until the recording has so many.
    pub fn run(&mut self, random: &mut Xorshift, calls: usize) {
        while self.recording.calls < calls {
            self.step(random);
        }
    }

    fn node(&mut self, at: usize) -> Node<'_> {
        self.recording.node(at)
    }

    /// One random call of one random controller.
    fn step(&mut self, random: &mut Xorshift) {
        let at = random.below(CONTROLLERS as u64) as usize;
        match random.below(100) {
            0..=21 => self.add(random, at),
            22..=33 => self.remove(random, at),
            34..=38 => self.node(at).compact(),
            39..=41 => self.list(random, at),
            42..=45 => self.page(random, at),
            46..=47 => self.lookup(random, at),
            48..=50 => self.merge(random, at),
            51..=53 => self.lend(random, at),
            54..=55 => self.key(random, at),
            56..=62 if self.wild => self.stray(random, at),
            63..=68 if self.wild => self.garbled(random, at),
            69 if self.wild => self.damaged(random, at),
            70..=71 => self.image(random, at),
            72 => self.swap(random, at),
            _ => self.deliver(random, at),
        }
    }

    /// The length of an output: ample, or what is needed, or one less, or any.
    fn out(&self, random: &mut Xorshift, needed: usize) -> usize {
        match random.below(20) {
            0 => needed.saturating_sub(1),
            1 => needed,
            2 => random.below(30) as usize,
            _ => AMPLE,
        }
    }

    /// Some of the dots listed; where rules may be broken, also any other dots in any order.
    fn context(&mut self, random: &mut Xorshift, at: usize, percent: u64) -> Vec<u8> {
        let mut context = self.node(at).live();
        context.retain(|_| random.chance(percent));
        context.truncate(CONTEXT_DOTS_MAX);
        while self.wild && random.chance(30) {
            let dot = (self.actor(random), self.counter(random));
            context.push(dots(&[dot]).try_into().expect("nine bytes"));
        }
        if random.chance(92) {
            context.sort();
            context.dedup();
        }
        context.concat()
    }

    fn actor(&self, random: &mut Xorshift) -> u8 {
        if random.chance(6) {
            return *random.pick(&[0, 17, 255]);
        }
        *random.pick(&self.actors)
    }

    fn counter(&self, random: &mut Xorshift) -> u64 {
        if random.chance(25) {
            return *random.pick(&COUNTERS);
        }
        1 + random.below(20)
    }

    fn label(&self, random: &mut Xorshift) -> &'static [u8] {
        if self.wild && random.chance(9) {
            return random.pick::<&[u8]>(&BAD_LABELS);
        }
        random.pick::<&[u8]>(&LABELS)
    }

    fn add(&mut self, random: &mut Xorshift, at: usize) {
        let label = self.label(random);
        let context = self.context(random, at, 15);
        let needed = self.name.len() + label.len() + context.len() + 18;
        let out = self.out(random, needed);
        let reply = self.node(at).add_into(label, &context, out);
        self.send(reply);
    }

    fn remove(&mut self, random: &mut Xorshift, at: usize) {
        let context = self.context(random, at, 25);
        let needed = self.name.len() + context.len() + 8;
        let out = self.out(random, needed);
        let reply = self.node(at).remove_into(&context, out);
        self.send(reply);
    }

    fn send(&mut self, reply: Reply) {
        self.sent.extend(reply.message());
    }

    fn list(&mut self, random: &mut Xorshift, at: usize) {
        let needed = self.node(at).listing().len();
        let out = self.out(random, needed);
        self.node(at).list(out);
    }

    /// A page from the front or after a label, in an output for some of the listing.
    fn page(&mut self, random: &mut Xorshift, at: usize) {
        let start: &[u8] = if random.chance(30) {
            b""
        } else {
            self.label(random)
        };
        let most = self.node(at).listing().len() as u64;
        let needed = random.below(most + 1) as usize;
        let out = if random.chance(70) {
            needed
        } else {
            self.out(random, needed)
        };
        self.node(at).page(start, out);
    }

    /// A merged read with any controller, itself too, in an output of about what the two list.
    fn merge(&mut self, random: &mut Xorshift, at: usize) {
        let other = random.below(CONTROLLERS as u64) as usize;
        let needed = self.node(at).merged_length(other);
        let out = self.out(random, needed);
        self.node(at).merge(other, out);
    }

    fn lookup(&mut self, random: &mut Xorshift, at: usize) {
        let label = self.label(random);
        self.node(at).lookup(label);
    }

    /// Another length of the store: ample, or about what the next key needs.
    fn lend(&mut self, random: &mut Xorshift, at: usize) {
        let used = self.node(at).state().used as usize;
        let key = self.name.len() + random.pick(&LABELS).len() + 15;
        let length = match random.below(8) {
            0 => used,
            1 => used + key - 1,
            2 => used + key,
            _ => STORE,
        };
        self.node(at).lend(length.max(used));
    }

    /// A key of set R1, read as it is or with a bit turned over.
    fn key(&mut self, random: &mut Xorshift, at: usize) {
        let dot = (self.actor(random), self.counter(random));
        let mut key = key(self.label(random), dot);
        if random.chance(50) {
            let place = random.below(key.len() as u64) as usize;
            key[place] ^= 1 << random.below(8);
        }
        self.node(at).read_key(&key);
    }

    /// Some message sent before: late or soon, again or never, now and then cut.
    fn deliver(&mut self, random: &mut Xorshift, at: usize) {
        if self.sent.is_empty() {
            return;
        }
        let late = self.sent.len().saturating_sub(12);
        let from = if random.chance(60) { late } else { 0 };
        let mut message = random.pick(&self.sent[from..]).clone();
        if random.chance(4) {
            message.truncate(random.below(message.len() as u64) as usize);
        }
        self.node(at).take(&message);
    }

    /// A message that no controller sent: of a fifth actor, of the controller itself, or of
    /// another set.
    fn stray(&mut self, random: &mut Xorshift, at: usize) {
        let other = NAMES.iter().find(|name| **name != self.name);
        let name = if random.chance(8) {
            other.expect("three names")
        } else {
            self.name
        };
        let dot = (self.actor(random), self.counter(random));
        let mut context = Vec::new();
        while random.chance(40) {
            context.push((self.actor(random), self.counter(random)));
        }
        context.sort();
        let message = if random.chance(70) {
            add_message(name, self.label(random), dot, &context)
        } else {
            remove_message(name, &context)
        };
        self.node(at).take(&message);
    }

    /// A message sent before with a byte changed, lost or put in: read, and taken in.
    fn garbled(&mut self, random: &mut Xorshift, at: usize) {
        if self.sent.is_empty() {
            return;
        }
        let mut message = random.pick(&self.sent).clone();
        let place = random.below(message.len() as u64) as usize;
        match random.below(6) {
            0 => message.insert(place, random.next() as u8),
            1 => drop(message.remove(place)),
            2 => message[place] = 0,
            3 => message[place] ^= 1 << random.below(8),
            4 => message.push(0),
            _ => message[place] = random.next() as u8,
        }
        self.node(at).read_message(&message);
        self.node(at).take(&message);
    }

    /// A controller writes an image, which is kept.
    fn image(&mut self, random: &mut Xorshift, at: usize) {
        let out = if random.chance(90) { IMAGE } else { 275 };
        let reply = self.node(at).image(out);
        self.images.extend(reply.message());
    }

    /// A controller dies, and another loads an image in its place, as an actor that none had; mostly
    /// after the image came garbled, or the actor was another.
    fn swap(&mut self, random: &mut Xorshift, at: usize) {
        let fresh = (1..=16).find(|actor| !self.actors.contains(actor));
        let (false, Some(fresh)) = (self.images.is_empty(), fresh) else {
            return;
        };
        let image = random.pick(&self.images).clone();
        let mut garbled = image.clone();
        match random.below(4) {
            0 => garbled[random.below(image.len() as u64) as usize] ^= 1 << random.below(8),
            1 => garbled.truncate(random.below(image.len() as u64) as usize),
            _ => (),
        }
        let actor = self.actor(random);
        self.node(at).load(actor, &garbled);
        self.node(at).lend(STORE);
        if self.node(at).load(fresh, &image).message().is_some() {
            self.actors.push(fresh);
        }
    }

    /// A controller that is damaged for two calls, which change nothing, and whole again.
    fn damaged(&mut self, random: &mut Xorshift, at: usize) {
        let mut node = self.node(at);
        let (actor, used) = (node.state().actor, node.state().used);
        let (field, broken, whole) = match random.below(4) {
            0 => ("actor".to_string(), 17, u64::from(actor)),
            1 => ("used".to_string(), used + 1, used),
            2 => ("count".to_string(), 129, node.state().count),
            _ => (format!("window {actor}"), 2, 0),
        };
        node.say(&format!("poke {field} {broken}"));
        self.deliver(random, at);
        self.add(random, at);
        self.node(at).say(&format!("poke {field} {whole}"));
    }
}
