//! The scenario of several controllers of one set: they add, remove and compact, and exchange
//! messages that are lost, repeated, shuffled, cut and garbled; some are swapped for others, which load
//! an image.

use super::episode::Episode;
use super::trial::{Act, What};
use super::{messages, moves, pools};
use crate::script::{Command, Reply, Tool, RACKS};
use limits::{ACTORS, ACTOR_MAX};

/// The store that is lent for a load, and more than any store of a network uses.
const STORE: usize = 4096;

/// The messages sent and the images written so far, the actors taken, and how the controllers behave.
struct Air {
    racks: usize,
    sent: Vec<Vec<u8>>,
    images: Vec<Vec<u8>>,
    taken: Vec<u8>,
    wild: bool,
}

impl Episode<'_> {
    /// Sets controllers up, lets them run, and reads all of them in the end. In a wild run actors
    /// and sets may be mistaken, and states damaged.
    pub fn network(&mut self, wild: bool) -> Result<(), What> {
        let racks = match self.random.chance(4) {
            true => RACKS,
            false => self.random.between(2, 5),
        };
        self.racks = racks;
        let mut air = Air {
            racks,
            sent: Vec::new(),
            images: Vec::new(),
            taken: Vec::new(),
            wild,
        };
        self.set_all_up(&mut air)?;
        for _ in 0..self.random.between(30, 200) {
            if self.is_over() {
                return Ok(());
            }
            let at = self.random.below(racks);
            self.network_move(at, &mut air)?;
        }
        self.read_all(&air)
    }

    fn set_all_up(&mut self, air: &mut Air) -> Result<(), What> {
        let common = pools::name(self.random);
        let first = self.random.below(ACTORS);
        for at in 0..air.racks {
            let mistaken = air.wild && self.random.chance(20);
            let (actor, name) = match mistaken {
                true => (pools::any_actor(self.random), pools::any_name(self.random)),
                false => (((first + at) % ACTORS + 1) as u8, common.clone()),
            };
            let length = 200 + self.random.below(1500);
            let fill = self.random.byte();
            air.taken.push(actor);
            self.act(at, Act::Command(Command::Setup { actor, name }))?;
            self.act(at, Act::Tool(Tool::Buffer { length, fill }))?;
        }
        Ok(())
    }

    fn network_move(&mut self, at: usize, air: &mut Air) -> Result<(), What> {
        let wild = air.wild;
        match self.random.below(100) {
            0..=21 => {
                let command = self.choose(at, |random, rack| moves::own_add(random, rack, wild));
                self.send(at, command, air)
            }
            22..=31 => {
                let command = self.choose(at, |random, rack| moves::own_remove(random, rack, wild));
                self.send(at, command, air)
            }
            32..=73 => self.deliver(at, air),
            74..=87 => {
                let command = self.choose(at, moves::looking);
                self.give(at, command).map(drop)
            }
            88 | 89 => self.merge(at),
            90..=93 => {
                let message = self.choose(at, |random, rack| messages::made(random, rack, wild));
                self.give(at, Command::Take { message }).map(drop)
            }
            94 | 95 => self.swap(at, air),
            _ if wild => self.wild_move(at),
            _ => {
                let command = self.choose(at, moves::formats);
                self.act(at, Act::Command(command)).map(drop)
            }
        }
    }

    /// An own call; the message it wrote goes on the air.
    fn send(&mut self, at: usize, command: Command, air: &mut Air) -> Result<(), What> {
        if let Some(Reply::Wrote(wrote)) = self.give(at, command)? {
            if wrote.answer == 0 {
                let message = self.out()[..wrote.written].to_vec();
                air.sent.push(message);
            }
        }
        Ok(())
    }

    /// A message sent before, any number of times, late or never; now and then garbled.
    fn deliver(&mut self, at: usize, air: &Air) -> Result<(), What> {
        let late = air.sent.len().saturating_sub(12);
        let from = match self.random.chance(70) {
            true => late,
            false => 0,
        };
        let Some(mut message) = self.random.any(&air.sent[from..]) else {
            return Ok(());
        };
        if self.random.chance(8) {
            messages::garble(self.random, &mut message);
        }
        self.give(at, Command::Take { message }).map(drop)
    }

    /// A controller writes an image; or it dies, and another takes its place from an image of any
    /// controller, now or long ago, as an actor that none has had.
    fn swap(&mut self, at: usize, air: &mut Air) -> Result<(), What> {
        let free = (1..=ACTOR_MAX).find(|actor| !air.taken.contains(actor));
        let (Some(image), Some(actor), true) =
            (self.random.any(&air.images), free, self.random.chance(50))
        else {
            let image = self.image(at)?;
            air.images.extend(image);
            return Ok(());
        };
        let (length, fill) = (STORE, self.random.byte());
        self.act(at, Act::Tool(Tool::Buffer { length, fill }))?;
        air.taken.push(actor);
        self.act(at, Act::Command(Command::Load { actor, image }))
            .map(drop)
    }

    /// Lists, compacts and lists again.
    fn read_all(&mut self, air: &Air) -> Result<(), What> {
        for at in 0..air.racks {
            let out = self.rack(at).store.len();
            for command in [
                Command::List { out },
                Command::Compact,
                Command::List { out },
            ] {
                self.act(at, Act::Command(command))?;
            }
        }
        Ok(())
    }
}
