//! An episode: controllers of its own, a script of what was done to them, and the scenarios of a
//! single controller, of which images may be loaded into another. The scenario of several is in
//! `network`.

use super::damage::Damage;
use super::moves;
use super::random::Random;
use super::starts::start;
use super::tally::Tally;
use super::trial::{Act, Step, Trial, What};
use super::{images, pools, Engines};
use crate::script::{Both, Command, Rack, Reply, RACKS};

/// The controller that images are loaded into on trial.
const SPARE: usize = RACKS - 1;

/// The controllers and the script so far, and what the whole run shares.
pub struct Episode<'a> {
    trial: Trial<'a>,
    /// How many controllers there are.
    pub racks: usize,
    pub random: &'a mut Random,
    tally: &'a mut Tally,
    script: Vec<Step>,
}

impl<'a> Episode<'a> {
    pub fn new(engines: Engines<'a>, random: &'a mut Random, tally: &'a mut Tally) -> Episode<'a> {
        Episode {
            trial: Trial::new(engines),
            racks: 1,
            random,
            tally,
            script: Vec::new(),
        }
    }

    /// Plays one scenario. An error says what differs, at the script's last step.
    pub fn play(&mut self) -> Result<(), What> {
        match self.random.below(1000) {
            0 => self.large(),
            1..=250 => self.network(false),
            251..=350 => self.network(true),
            _ => self.single(),
        }
    }

    /// All steps so far.
    pub fn into_script(self) -> Vec<Step> {
        self.script
    }

    /// True when the run has had its calls.
    pub fn is_over(&self) -> bool {
        self.tally.left() == 0
    }

    pub fn rack(&mut self, at: usize) -> &Rack {
        self.trial.rack(at)
    }

    /// The output of the last step.
    pub fn out(&self) -> &[u8] {
        self.trial.out(0)
    }

    /// A random choice about a controller.
    pub fn choose<T>(&mut self, at: usize, choice: impl Fn(&mut Random, &Rack) -> T) -> T {
        choice(self.random, self.trial.rack(at))
    }

    /// Takes one step and writes it down. The reply, if a call was made.
    pub fn act(&mut self, rack: usize, act: Act) -> Result<Option<Reply>, What> {
        let step = Step { rack, act };
        let held = self.trial.held();
        let reply = self.trial.step(&step);
        match (&reply, &step.act) {
            (Ok(Some(reply)), Act::Command(command)) => self.tally.count_command(command, reply),
            (Ok(Some(reply)), Act::Both(both)) => self.tally.count(both, reply),
            _ => (),
        }
        self.tally.held(held, self.trial.held());
        self.script.push(step);
        reply
    }

    /// Gives a command, with another store lent before it now and then.
    pub fn give(&mut self, at: usize, command: Command) -> Result<Option<Reply>, What> {
        if let Some(buffer) = self.choose(at, |random, rack| moves::lend(random, rack, &command)) {
            self.act(at, Act::Tool(buffer))?;
        }
        self.act(at, Act::Command(command))
    }

    /// Reads a controller and any other, or itself, as one. Which of them is first is chance.
    pub fn merge(&mut self, at: usize) -> Result<(), What> {
        let other = self.random.below(self.racks);
        let [first, second] = match self.random.chance(50) {
            true => [at, other],
            false => [other, at],
        };
        let merge = |out| Act::Both(Both::Merge { first, second, out });
        let ample = self.rack(first).used() + self.rack(second).used();
        let Some(merged) = self.listed(0, merge(ample))? else {
            return Ok(());
        };
        let out = pools::out(self.random, merged.len());
        self.listed(0, merge(out))?;
        let mut as_one_lists = false;
        for at in [first, second] {
            let out = self.rack(at).used();
            let list = Act::Command(Command::List { out });
            as_one_lists |= self.listed(at, list)?.as_ref() == Some(&merged);
        }
        self.tally.merged(as_one_lists);
        Ok(())
    }

    /// The bytes of a listing, merged or not; none if it is refused.
    fn listed(&mut self, at: usize, act: Act) -> Result<Option<Vec<u8>>, What> {
        let reply = self.act(at, act)?;
        Ok(match reply {
            Some(Reply::Listed(listed)) if listed.answer == 0 => {
                Some(self.out()[..listed.written].to_vec())
            }
            _ => None,
        })
    }

    /// The image that a controller writes; none if it is refused.
    pub fn image(&mut self, at: usize) -> Result<Option<Vec<u8>>, What> {
        let out = images::length(self.rack(at));
        let reply = self.act(at, Act::Command(Command::Image { out }))?;
        Ok(match reply {
            Some(Reply::Wrote(wrote)) if wrote.answer == 0 => {
                Some(self.out()[..wrote.written].to_vec())
            }
            _ => None,
        })
    }

    /// Loads images of a controller into the spare one: the one that it writes, and others. A few
    /// calls go on from each that is accepted.
    fn hand_off(&mut self, at: usize) -> Result<(), What> {
        let mut image = self.image(at)?;
        for _ in 0..self.random.between(1, 4) {
            let (actor, made) = self.choose(at, |random, rack| {
                (
                    images::actor(random, &rack.state),
                    images::made(random, rack),
                )
            });
            let image = image.take().unwrap_or(made);
            let buffer = self.choose(at, |random, rack| images::lend(random, rack.used()));
            self.act(SPARE, Act::Tool(buffer))?;
            let load = Command::Load { actor, image };
            let reply = self.act(SPARE, Act::Command(load))?;
            if reply.is_some_and(|reply| reply.answer() == 0) {
                self.go_on()?;
            }
        }
        Ok(())
    }

    /// A few calls on the spare controller after a load; its image at once is the first, mostly.
    fn go_on(&mut self) -> Result<(), What> {
        if self.random.chance(70) {
            self.image(SPARE)?;
        }
        for _ in 0..self.random.below(5) {
            let command = self.choose(SPARE, |random, rack| moves::call(random, rack, true));
            self.give(SPARE, command)?;
        }
        Ok(())
    }

    /// Damages a controller, calls it, and undoes the damage in most cases.
    pub fn damage(&mut self, at: usize) -> Result<(), What> {
        let damage = self.choose(at, Damage::of);
        self.acts(at, damage.acts)?;
        for _ in 0..self.random.between(1, 3) {
            if self.random.chance(12) {
                self.merge(at)?;
                continue;
            }
            let command = self.choose(at, |random, rack| moves::call(random, rack, true));
            self.act(at, Act::Command(command))?;
        }
        match self.random.chance(85) {
            true => self.acts(at, damage.undo),
            false => Ok(()),
        }
    }

    pub fn acts(&mut self, at: usize, acts: Vec<Act>) -> Result<(), What> {
        for act in acts {
            self.act(at, act)?;
        }
        Ok(())
    }

    /// One controller from a state made for it.
    fn single(&mut self) -> Result<(), What> {
        let keys = match self.random.below(4) {
            0 => 0,
            1 => self.random.below(30),
            _ => self.random.below(8),
        };
        self.started(keys, 30)
    }

    /// One controller with a store of many keys.
    fn large(&mut self) -> Result<(), What> {
        let keys = self.random.between(500, 3500);
        self.started(keys, 20)
    }

    /// Now and then beside another one, which mostly started alike.
    fn started(&mut self, keys: usize, most: usize) -> Result<(), What> {
        let acts = start(self.random, keys);
        self.acts(0, acts.clone())?;
        if self.random.chance(25) {
            self.racks = 2;
            let acts = match self.random.chance(70) {
                true => acts,
                false => start(self.random, keys),
            };
            self.acts(1, acts)?;
        }
        for _ in 0..self.random.between(8, most) {
            if self.is_over() {
                return Ok(());
            }
            let at = self.random.below(self.racks);
            self.wild_move(at)?;
        }
        Ok(())
    }

    /// A call with any arguments, damage, a set-up, a merged read, or images.
    pub fn wild_move(&mut self, at: usize) -> Result<(), What> {
        match self.random.below(100) {
            0..=9 => self.damage(at),
            10 => {
                let actor = pools::any_actor(self.random);
                let name = pools::any_name(self.random);
                let setup = Command::Setup { actor, name };
                self.act(at, Act::Command(setup)).map(drop)
            }
            11 | 12 => self.merge(at),
            13 | 14 => self.hand_off(at),
            _ => {
                let command = self.choose(at, |random, rack| moves::call(random, rack, true));
                self.give(at, command).map(drop)
            }
        }
    }
}
