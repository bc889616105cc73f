//! The calls of a box: kept in flash when accepted, with power that may fail in between. A box does
//! with each answer what docs/INTEGRATION.md says.

use super::floor::Floor;
use super::station::Said;
use crate::script::{Command, Worded};
use limits::DOT_SIZE;
use ptl::Answer;

/// Answers that a box meets in an honest day, beside 0 and those to noise.
pub const OWN_AHEAD: u8 = Answer::OwnAhead as u8;
pub const TOO_FAR: u8 = Answer::TooFar as u8;
const TOMBSTONE_FULL: u8 = Answer::TombstoneFull as u8;
pub const STORE_FULL: u8 = Answer::StoreFull as u8;

/// Calls that a full tombstone refused: at first, and after the compaction that followed.
#[derive(Default)]
pub struct Blocked {
    pub once: usize,
    pub again: usize,
}

impl Floor<'_> {
    /// A call, kept in flash if it was accepted. None if the power failed before that.
    pub fn act(&mut self, at: usize, command: &Command) -> Option<Said> {
        let said = self.stations[at].call(self.engine, command);
        self.calls += 1;
        self.tally.call(said.answer);
        let cut = said.answer == 0 && self.random.below(10_000) < self.weather.cuts;
        let kept = said.answer == 0 && !(cut && self.random.chance(50));
        if kept {
            self.stations[at].keep();
            if !self.stations[at].tell(command) {
                self.fault(at, "accepts what is no call of the rules".into());
            }
            self.note_call(at, command, &said);
        }
        if said.answer != 0 && !self.stations[at].is_as_kept() {
            self.fault(at, format!("answers {} and yet changes", said.answer));
        }
        if kept && *command == Command::Compact && self.stations[at].state().count() != 0 {
            self.fault(at, "compacts and yet has dots in its tombstone".into());
        }
        if cut {
            self.cut_power(at);
        }
        if self.random.chance(2) {
            self.hold(at);
        }
        self.look_in_time();
        (kept || said.answer != 0).then_some(said)
    }

    /// The power of a box fails, mostly for a short time.
    fn cut_power(&mut self, at: usize) {
        let ticks = match self.random.chance(self.weather.long_cuts) {
            true => self.random.between(300, 700),
            false => self.random.between(5, 40),
        };
        let fill = self.random.byte();
        self.stations[at].lose_power(fill, self.tick + ticks as u64);
        self.tally.cuts += 1;
    }

    /// A call; on 11 and 12 the box compacts and tries again, and if the store stays full it gets
    /// a longer one. After a compaction the tombstone is empty, so that 11 is the answer no more.
    /// None if the power failed meanwhile.
    pub fn insist(&mut self, at: usize, command: &Command) -> Option<Said> {
        let mut said = self.act(at, command)?;
        if said.answer == TOMBSTONE_FULL || said.answer == STORE_FULL {
            self.blocked.once += usize::from(said.answer == TOMBSTONE_FULL);
            self.act(at, &Command::Compact)?;
            said = self.act_if_on(at, command)?;
            self.blocked.again += usize::from(said.answer == TOMBSTONE_FULL);
        }
        if said.answer == STORE_FULL {
            let fill = self.random.byte();
            self.stations[at].lend_more(fill);
            said = self.act_if_on(at, command)?;
        }
        Some(said)
    }

    fn act_if_on(&mut self, at: usize, command: &Command) -> Option<Said> {
        match self.is_on(at) {
            true => self.act(at, command),
            false => None,
        }
    }

    /// An own call; what it writes goes out to all others. False if it was not done.
    pub fn own(&mut self, at: usize, command: &Command) -> bool {
        let Some(said) = self.insist(at, command) else {
            return false;
        };
        match said.answer {
            0 => {
                self.longest = self.longest.max(context_dots(command));
                self.post(at, said.message);
            }
            STORE_FULL => {}
            answer => self.fault(
                at,
                format!("answers {answer} to its own {}", command.word()),
            ),
        }
        said.answer == 0
    }
}

/// The number of dots in the context of an own call.
fn context_dots(command: &Command) -> usize {
    match command {
        Command::Add { context, .. } | Command::Remove { context, .. } => context.len() / DOT_SIZE,
        _ => 0,
    }
}
