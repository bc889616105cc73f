//! The premise of demand 3, checked at every step of the day, in the words of
//! `crates/replica/specs/Network.antt`: the boxes are a workshop (`sets_up`, `goes_on`), and so a
//! network (`made-once`, `unforged`). It is told of each step, and says which clause the step broke.

use super::floor::Floor;
use super::hold::pair_text;
use super::station::Said;
use crate::script::Command;
use reference::{read_message, Dot};
use std::collections::{BTreeMap, BTreeSet};
use std::fmt;

/// What a step must keep to.
#[derive(Clone, Copy, PartialEq, Eq, PartialOrd, Ord, Debug)]
pub enum Clause {
    /// A box is set up under an actor that was not given out.
    SetsUp,
    /// A call is one of the box that has its actor, as that box is now; an image is loaded under an
    /// actor that was not given out.
    GoesOn,
    /// No two own adds give one dot to different labels.
    MadeOnce,
    /// Label and dot of an add accepted from elsewhere were written before, by an own add.
    Unforged,
}

impl fmt::Display for Clause {
    fn fmt(&self, f: &mut fmt::Formatter<'_>) -> fmt::Result {
        f.write_str(match self {
            Clause::SetsUp => "setsUp",
            Clause::GoesOn => "goesOn",
            Clause::MadeOnce => "made-once",
            Clause::Unforged => "unforged",
        })
    }
}

/// A clause that a step broke, and how.
#[derive(Clone, PartialEq, Eq, Debug)]
pub struct Broken {
    pub clause: Clause,
    pub what: String,
}

impl Broken {
    /// None if there is nothing to say.
    fn of(clause: Clause, what: Option<String>) -> Option<Broken> {
        what.map(|what| Broken { clause, what })
    }
}

/// A box at one moment (`Account`): the number of the step that brought it there.
#[derive(Clone, Copy, PartialEq, Eq, Debug, Default)]
pub struct Life(u64);

/// The label and the dot of an add.
pub type Pair = (Vec<u8>, Dot);

/// The workshop so far.
#[derive(Default)]
pub struct Premise {
    /// The actors given out, each with the box that has it, as that is now (`boxOf`).
    box_of: BTreeMap<u8, Life>,
    /// The labels that own adds gave to each dot (`madeIn`).
    made: BTreeMap<Dot, BTreeSet<Vec<u8>>>,
    last: Life,
    counts: Counts,
    /// How often each clause broke, by the box that broke it.
    broken: BTreeMap<(Clause, usize), u64>,
}

/// Steps that were checked. Own adds and adds from elsewhere are among the calls.
#[derive(Clone, Copy, Default)]
struct Counts {
    set_ups: u64,
    loads: u64,
    calls: u64,
    own_adds: u64,
    taken: u64,
}

impl Premise {
    /// A box is set up under this actor.
    pub fn sets_up(&mut self, actor: u8, life: &mut Life) -> Option<Broken> {
        self.counts.set_ups += 1;
        let before = self.lives_on(actor, life);
        let what = before.map(|_| format!("is set up under actor {actor}, which was given out"));
        Broken::of(Clause::SetsUp, what)
    }

    /// A box has loaded an image under this actor.
    pub fn loads(&mut self, actor: u8, life: &mut Life) -> Option<Broken> {
        self.counts.loads += 1;
        let before = self.lives_on(actor, life);
        let what =
            before.map(|_| format!("loads an image under actor {actor}, which was given out"));
        Broken::of(Clause::GoesOn, what)
    }

    /// A box under this actor has made a call.
    pub fn goes_on(&mut self, actor: u8, life: &mut Life) -> Option<Broken> {
        self.counts.calls += 1;
        let from = *life;
        let before = self.lives_on(actor, life);
        let what = || format!("goes on from another state than the last under actor {actor}");
        Broken::of(Clause::GoesOn, (before != Some(from)).then(what))
    }

    /// A box has made an own add.
    pub fn own_add(&mut self, pair: &Pair) -> Option<Broken> {
        self.counts.own_adds += 1;
        let (label, dot) = pair;
        let labels = self.made.entry(*dot).or_default();
        let other = labels.iter().find(|other| *other != label).cloned();
        labels.insert(label.clone());
        let what = other.map(|other| {
            let [pair, other] = [pair, &(other, *dot)].map(pair_text);
            format!("writes {pair}, and {other} was written before")
        });
        Broken::of(Clause::MadeOnce, what)
    }

    /// A box has accepted an add from elsewhere.
    pub fn takes_in(&mut self, pair: &Pair) -> Option<Broken> {
        self.counts.taken += 1;
        let (label, dot) = pair;
        let labels = self.made.get(dot);
        let written = labels.is_some_and(|labels| labels.contains(label));
        let what = || format!("accepts {}, which no box had written", pair_text(pair));
        Broken::of(Clause::Unforged, (!written).then(what))
    }

    /// The box that has an actor comes to another moment; the one that it was at, if the actor was
    /// given out.
    fn lives_on(&mut self, actor: u8, life: &mut Life) -> Option<Life> {
        self.last.0 += 1;
        *life = self.last;
        self.box_of.insert(actor, *life)
    }

    /// Counts a clause that a box broke; true at the first time.
    fn count(&mut self, clause: Clause, at: usize) -> bool {
        let times = self.broken.entry((clause, at)).or_default();
        *times += 1;
        *times == 1
    }

    pub fn holds(&self) -> bool {
        self.broken.is_empty()
    }

    /// What became of the premise, in one line.
    pub fn line(&self) -> String {
        let what = match self.holds() {
            true => "held at every step".into(),
            false => format!("BROKE ({})", self.times_broken()),
        };
        let Counts {
            set_ups,
            loads,
            calls,
            own_adds,
            taken,
        } = self.counts;
        format!(
            "The premise {what}. Checked: set-ups {set_ups} ({}), loads {loads} and accepted calls {calls} ({}), \
             own adds {own_adds} ({}), accepted adds from elsewhere {taken} ({}).",
            Clause::SetsUp,
            Clause::GoesOn,
            Clause::MadeOnce,
            Clause::Unforged
        )
    }

    /// How often each clause broke.
    fn times_broken(&self) -> String {
        let mut times: BTreeMap<Clause, u64> = BTreeMap::new();
        for ((clause, _), number) in &self.broken {
            *times.entry(*clause).or_default() += number;
        }
        let times: Vec<String> = times.iter().map(|(of, n)| format!("{of} {n}")).collect();
        times.join(", ")
    }
}

/// Label and dot of the add in a message; none if it is a remove or no message.
fn add_of(message: &[u8]) -> Option<Pair> {
    read_message(message).message?.add
}

impl Floor<'_> {
    /// A box was set up.
    pub fn note_set_up(&mut self, at: usize) {
        self.note_life(at, Premise::sets_up);
    }

    /// A box has loaded an image.
    pub fn note_load(&mut self, at: usize) {
        self.note_life(at, Premise::loads);
    }

    /// A box has made a call that was accepted and kept. One that was not kept has sent nothing.
    pub fn note_call(&mut self, at: usize, command: &Command, said: &Said) {
        self.note_life(at, Premise::goes_on);
        let broken = match command {
            Command::Add { .. } => add_of(&said.message).and_then(|add| self.premise.own_add(&add)),
            Command::Take { message } => {
                add_of(message).and_then(|add| self.premise.takes_in(&add))
            }
            _ => None,
        };
        self.note_broken(at, broken);
    }

    fn note_life(&mut self, at: usize, step: fn(&mut Premise, u8, &mut Life) -> Option<Broken>) {
        let station = &mut self.stations[at];
        let actor = station.state().actor().0;
        let broken = step(&mut self.premise, actor, &mut station.life);
        self.note_broken(at, broken);
    }

    /// Notes a clause that a box broke; of each box and clause the first time only.
    fn note_broken(&mut self, at: usize, broken: Option<Broken>) {
        let Some(Broken { clause, what }) = broken else {
            return;
        };
        if self.premise.count(clause, at) {
            self.note_line("PREMISE BROKEN", at, format!("{clause}: it {what}"));
        }
    }
}
