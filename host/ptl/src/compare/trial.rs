//! A script of commands, run on two engines side by side and compared after each one.

use super::honest::{leaves, Honest};
use super::{images, Engines};
use crate::script::{Both, Command, Rack, Reply, Tool, Worded, RACKS};
use ptl::Dot;

/// What lent outputs hold before a call.
pub const FILL: u8 = 0xA5;

/// What is not as it should be.
pub type What = &'static str;

/// One step of a script.
#[derive(Clone, PartialEq, Eq, Debug)]
pub struct Step {
    pub rack: usize,
    pub act: Act,
}

/// A command; a call that reads two controllers, whichever the step is of; a tool; or keys put at the
/// store's front as its used part; or dots put in the first slots of the tombstone, with their
/// number.
#[derive(Clone, PartialEq, Eq, Debug)]
pub enum Act {
    Command(Command),
    Both(Both),
    Tool(Tool),
    Keys(Vec<Vec<u8>>),
    Dots(Vec<Dot>),
}

impl Act {
    /// Does to a controller what is no call. A poke outside the store does nothing.
    pub fn change(&self, rack: &mut Rack) {
        match self {
            Act::Tool(tool) => drop(rack.obey(tool)),
            Act::Keys(keys) => put_keys(rack, &keys.concat()),
            Act::Dots(dots) => put_dots(rack, dots),
            Act::Command(_) | Act::Both(_) => (),
        }
    }
}

/// Puts keys at the front of the store, as far as they fit, and sets the used length.
fn put_keys(rack: &mut Rack, keys: &[u8]) {
    let fits = keys.len().min(rack.store.len());
    rack.store[..fits].copy_from_slice(&keys[..fits]);
    rack.state.set_used(keys.len() as u64);
}

/// Puts dots in the first slots of the tombstone, and sets their number.
fn put_dots(rack: &mut Rack, dots: &[Dot]) {
    for (slot, dot) in dots.iter().enumerate() {
        rack.state.set_slot(slot, *dot);
    }
    rack.state.set_count(dots.len() as u64);
}

/// The controllers of one script, each held twice, and the outputs of the last step.
pub struct Trial<'a> {
    engines: Engines<'a>,
    pairs: Vec<Option<Pair>>,
    outs: [Vec<u8>; 2],
    /// The images that controllers held to the rule wrote, with what it knew of them then.
    images: Vec<(Vec<u8>, Honest)>,
    held: Held,
}

/// How many listings, merged or not, pages, lookups and compactions were held to the rule.
#[derive(Clone, Copy, PartialEq, Eq, Debug, Default)]
pub struct Held {
    pub all: u64,
    /// Those, merged reads aside, of controllers that had loaded an image.
    pub loaded: u64,
}

/// A controller on either side.
struct Pair {
    sides: [Rack; 2],
    /// What the rule knows of it, if it can be held to the rule.
    honest: Option<Honest>,
    /// The image that it loaded, with its new actor, if nothing was done to it since.
    loaded: Option<(u8, Vec<u8>)>,
}

impl<'a> Trial<'a> {
    pub fn new(engines: Engines<'a>) -> Trial<'a> {
        Trial {
            engines,
            pairs: (0..RACKS).map(|_| None).collect(),
            outs: [Vec::new(), Vec::new()],
            images: Vec::new(),
            held: Held::default(),
        }
    }

    /// A controller as the first engine left it.
    pub fn rack(&mut self, at: usize) -> &Rack {
        &self.pair(at).sides[0]
    }

    /// A controller as one engine left it.
    pub fn side(&mut self, at: usize, side: usize) -> &Rack {
        &self.pair(at).sides[side]
    }

    /// The output of the last step, on one side.
    pub fn out(&self, side: usize) -> &[u8] {
        &self.outs[side]
    }

    pub fn held(&self) -> Held {
        self.held
    }

    fn pair(&mut self, at: usize) -> &mut Pair {
        self.pairs[at].get_or_insert_with(|| Pair {
            sides: [Rack::new(), Rack::new()],
            honest: None,
            loaded: None,
        })
    }

    /// Takes a step on both sides and compares all that it left. The reply, if it was a call.
    pub fn step(&mut self, step: &Step) -> Result<Option<Reply>, What> {
        match &step.act {
            Act::Command(command) => return self.command(step.rack, command).map(Some),
            Act::Both(both) => return self.both(both).map(Some),
            act => self.pair(step.rack).change(act),
        }
        Ok(None)
    }

    fn command(&mut self, at: usize, command: &Command) -> Result<Reply, What> {
        let engines = self.engines;
        let reply = self.agreed(command, |trial, side, out| {
            engines[side].run(&mut trial.pair(at).sides[side], command, out)
        })?;
        let out = std::mem::take(&mut self.outs[0]);
        let begun = self.begun(command, &reply);
        let pair = self.pair(at);
        let done = pair.compare(command, &reply, begun, &out);
        let of_loaded = { pair.honest.as_ref() }.is_some_and(|honest| honest.is_loaded);
        let written = pair.honest_image(&reply, command, &out);
        self.images.extend(written);
        self.outs[0] = out;
        let held = u64::from(done?);
        self.held.all += held;
        self.held.loaded += held * u64::from(of_loaded);
        Ok(reply)
    }

    /// What the rule knows of a controller that begins anew, by a set-up or a load that is accepted;
    /// of a load only if a controller that was held to the rule wrote just this image. None for all
    /// other commands.
    fn begun(&self, command: &Command, reply: &Reply) -> Option<Option<Honest>> {
        let accepted = reply.answer() == 0;
        match command {
            Command::Setup { actor, name } => Some(accepted.then(|| Honest::new(*actor, name))),
            Command::Load { actor, image } => {
                let mut images = self.images.iter().filter(|_| accepted);
                let writer = images.find(|(written, _)| written == image);
                Some(writer.map(|(_, writer)| writer.handed_off(*actor)))
            }
            _ => None,
        }
    }

    /// A call that reads two controllers: neither may change.
    fn both(&mut self, both: &Both) -> Result<Reply, What> {
        let Both::Merge { first, second, .. } = *both;
        let engines = self.engines;
        for at in [first, second] {
            self.pair(at);
        }
        let reply = self.agreed(both, |trial, side, out| {
            let [first, second] = trial.two(first, second);
            engines[side].merge(&first.sides[side], &second.sides[side], out)
        })?;
        let [first, second] = self.two(first, second);
        first.is_alike()?;
        second.is_alike()?;
        if let (Some(one), Some(two)) = (&first.honest, &second.honest) {
            let held = one.check_merged(two, &reply, &self.outs[0])?;
            self.held.all += u64::from(held);
        }
        Ok(reply)
    }

    /// Two controllers that are there.
    fn two(&self, first: usize, second: usize) -> [&Pair; 2] {
        [first, second].map(|at| self.pairs[at].as_ref().expect("is there"))
    }

    /// Runs a call on both sides. Its reply, if the two agree on it and on their outputs.
    fn agreed(
        &mut self,
        asked: &impl Worded,
        run: impl Fn(&mut Self, usize, &mut [u8]) -> Reply,
    ) -> Result<Reply, What> {
        let mut outs = std::mem::take(&mut self.outs);
        let [reply, other] = [0, 1].map(|side| {
            let out = &mut outs[side];
            out.clear();
            out.resize(asked.out(), FILL);
            run(self, side, out)
        });
        self.outs = outs;
        if reply != other {
            return Err("answers or counts differ");
        }
        if self.outs[0] != self.outs[1] {
            return Err("outputs differ");
        }
        match asked.can_give(reply.answer()) {
            true => Ok(reply),
            false => Err("the call cannot give this answer"),
        }
    }
}

impl Pair {
    /// Does the same to both sides.
    fn change(&mut self, act: &Act) {
        for side in &mut self.sides {
            act.change(side);
        }
        let used = self.sides[0].state.used();
        if !matches!(act, Act::Tool(tool) if leaves(tool, used)) {
            self.honest = None;
            self.loaded = None;
        }
    }

    /// Compares the two sides, then holds them to the rule, and an image to the one loaded just
    /// before; true if there was something to hold to the rule.
    fn compare(
        &mut self,
        command: &Command,
        reply: &Reply,
        begun: Option<Option<Honest>>,
        out: &[u8],
    ) -> Result<bool, What> {
        self.is_alike()?;
        self.check_again(command, reply, out)?;
        match begun {
            Some(honest) => {
                self.honest = honest;
                Ok(false)
            }
            None => self.hold_to_rule(command, reply, out),
        }
    }

    /// An image that is loaded and at once written again differs in actor and CRC only.
    fn check_again(&mut self, command: &Command, reply: &Reply, out: &[u8]) -> Result<(), What> {
        match (command, reply, &self.loaded) {
            (Command::Image { .. }, Reply::Wrote(wrote), Some((actor, image))) => {
                let again = images::written_again(image, *actor);
                match wrote.answer != 0 || out[..wrote.written] == again {
                    true => Ok(()),
                    false => Err("an image loaded and at once written again is another"),
                }
            }
            (Command::Load { actor, image }, ..) => {
                let accepted = reply.answer() == 0;
                self.loaded = accepted.then(|| (*actor, image.clone()));
                Ok(())
            }
            _ => {
                self.loaded = None;
                Ok(())
            }
        }
    }

    /// The image that was written, if it was, with what the rule knows.
    fn honest_image(
        &self,
        reply: &Reply,
        command: &Command,
        out: &[u8],
    ) -> Option<(Vec<u8>, Honest)> {
        match (command, reply) {
            (Command::Image { .. }, Reply::Wrote(wrote)) if wrote.answer == 0 => {
                let honest = self.honest.clone()?;
                Some((out[..wrote.written].to_vec(), honest))
            }
            _ => None,
        }
    }

    /// Compares the two sides.
    fn is_alike(&self) -> Result<(), What> {
        let [left, right] = &self.sides;
        if left.state != right.state {
            return Err("states differ");
        }
        match left.store == right.store {
            true => Ok(()),
            false => Err("stores differ"),
        }
    }

    /// Tells the rule of a command that both sides agree on, and holds what was read to it.
    fn hold_to_rule(&mut self, command: &Command, reply: &Reply, out: &[u8]) -> Result<bool, What> {
        let rack = &self.sides[0];
        let Some(honest) = &mut self.honest else {
            return Ok(false);
        };
        if !honest.goes_on(command, reply) {
            self.honest = None;
            return Ok(false);
        }
        honest.check(command, reply, rack, out)
    }
}
