//! The day: its phases, their weather, and what is to be done in each.

use super::floor::Floor;
use super::goods::{label, Bin, BINS, BOXES, PARTS, RETURNS, RETURNS_BIN};
use super::goods::{SPRING, SPRING_BIN, SPRING_MOVES_TO};
use super::weather::Weather;
use super::work::{Done, Job, Task};
use crate::random::Random;
use std::collections::VecDeque;

/// What is to be done in a phase.
#[derive(Clone, Copy, PartialEq, Eq, Debug)]
pub enum Plan {
    /// Each rack fills its bins.
    Fill,
    /// So many labels come and go.
    Work(usize),
    /// A box is swapped. Racks change places, and all their labels with them.
    Move,
    /// All is sent again until every box has all.
    GetThrough,
}

pub struct Phase {
    pub name: &'static str,
    pub story: &'static str,
    pub plan: Plan,
    pub weather: Weather,
    /// How often the plan is carried out, each time followed by a break.
    rounds: usize,
    /// Ticks in a hundred at which something is to be done.
    busy: usize,
    /// Messages that boxes ask for again at every tick.
    again: usize,
    /// Ticks of a break, and messages asked for again at each of them.
    rest: usize,
    again_at_rest: usize,
}

pub const PHASES: [Phase; 5] = [
    Phase {
        name: "morning",
        story: "each rack fills its bins; the gas springs go to B7",
        plan: Plan::Fill,
        weather: Weather::FAIR,
        rounds: 1,
        busy: 30,
        again: 1,
        rest: 250,
        again_at_rest: 3,
    },
    Phase {
        name: "work",
        story: "labels come and go; boxes put returns in E12, each time under a dot of their own",
        plan: Plan::Work(125),
        weather: Weather::ROUGH,
        rounds: 4,
        busy: 35,
        again: 1,
        rest: 200,
        again_at_rest: 4,
    },
    Phase {
        name: "lunch",
        story:
            "a box dies, and the spare one takes its place; racks change places, all at once; the\n\
                \x20            gas springs go from B7 to C2; goods-in clears E12",
        plan: Plan::Move,
        weather: Weather::FOUL,
        rounds: 1,
        busy: 100,
        again: 0,
        rest: 0,
        again_at_rest: 0,
    },
    Phase {
        name: "afternoon",
        story: "labels come and go, and the radio stays bad",
        plan: Plan::Work(350),
        weather: Weather::FOUL,
        rounds: 1,
        busy: 35,
        again: 1,
        rest: 0,
        again_at_rest: 0,
    },
    Phase {
        name: "evening",
        story: "the radio gets through: all is sent again until every box has accepted all",
        plan: Plan::GetThrough,
        weather: Weather::CLEARING,
        rounds: 1,
        busy: 100,
        again: 0,
        rest: 0,
        again_at_rest: 0,
    },
];

/// How often a thing is tried before it is given up.
const TRIES: usize = 5;
/// Bins of a rack that are filled in the morning.
const FILLED: u8 = 10;
/// The box of the goods-in desk, which does a quarter of all work.
pub const GOODS_IN: usize = 4;
/// Tasks in a hundred that are returns.
const RETURNED: usize = 6;
/// Pairs of racks that change places at lunch; the gas springs' is one of them.
const PAIRS: usize = 4;

impl Floor<'_> {
    /// Plays a phase. In the end every box is held to its rule.
    pub fn play(&mut self, phase: &Phase) {
        self.begin(phase);
        if phase.plan == Plan::Move {
            self.swap();
        }
        self.break_premise(phase.plan);
        for _ in 0..phase.rounds {
            let mut tasks = self.tasks(phase.plan);
            while !tasks.is_empty() {
                self.pass(phase.again);
                if self.random.chance(phase.busy) {
                    self.do_next(&mut tasks);
                }
            }
            for _ in 0..phase.rest {
                self.pass(phase.again_at_rest);
            }
            self.look();
        }
        match phase.plan {
            Plan::Move => self.see_the_move(),
            Plan::GetThrough => self.get_through(),
            _ => {}
        }
        self.look();
        self.hold_all();
    }

    /// Does the first task. One that could not be done goes to the end, up to some tries.
    fn do_next(&mut self, tasks: &mut VecDeque<Task>) {
        let Some(mut task) = tasks.pop_front() else {
            return;
        };
        match self.work(&task) {
            Done::Yes => {}
            Done::NotNow => tasks.push_back(task),
            Done::Failed => {
                task.tries += 1;
                tasks.extend((task.tries < TRIES).then_some(task));
            }
        }
    }

    fn tasks(&mut self, plan: Plan) -> VecDeque<Task> {
        let mut tasks = match plan {
            Plan::Fill => self.filling(),
            Plan::Work(number) => (0..number).map(|_| self.something()).collect(),
            Plan::Move => self.moving(),
            Plan::GetThrough => self.going_on(),
        };
        shuffle(&mut self.random, &mut tasks);
        tasks.into()
    }

    fn filling(&mut self) -> Vec<Task> {
        let mut tasks = Vec::new();
        for at in 0..BOXES {
            for number in 1..=FILLED {
                let bin = Bin {
                    rack: self.stations[at].place,
                    number,
                };
                let part = match bin == SPRING_BIN {
                    true => SPRING,
                    false => self.random.pick(&PARTS),
                };
                tasks.push(Task::new(at, Job::Put(label(part, bin))));
            }
        }
        tasks
    }

    fn something(&mut self) -> Task {
        let at = match self.random.chance(25) {
            true => GOODS_IN,
            false => self.random.below(BOXES),
        };
        let job = match self.random.chance(RETURNED) {
            true => Job::Put(label(RETURNS, RETURNS_BIN)),
            false => Job::Any,
        };
        Task::new(at, job)
    }

    /// Pairs of racks change places, the boxes with them; the goods-in desk clears the returns.
    fn moving(&mut self) -> Vec<Task> {
        let (spring, other) = (SPRING_BIN.rack, SPRING_MOVES_TO.rack);
        let mut racks: Vec<u8> = (0..BOXES as u8)
            .filter(|rack| ![spring, other].contains(rack))
            .collect();
        shuffle(&mut self.random, &mut racks);
        let pairs = racks.chunks_exact(2).map(|pair| (pair[0], pair[1]));
        let pairs: Vec<(u8, u8)> = pairs.take(PAIRS - 1).chain([(spring, other)]).collect();
        let clear = Job::Clear(label(RETURNS, RETURNS_BIN));
        let mut tasks = vec![Task::new(GOODS_IN, clear)];
        for (one, two) in pairs {
            tasks.extend(self.moving_one(one, two));
            tasks.extend(self.moving_one(two, one));
        }
        tasks
    }

    /// The box of a rack takes all labels that it lists there, but for the returns, to another place,
    /// where the bins are numbered from elsewhere. In the morning boxes and racks have the same
    /// numbers.
    fn moving_one(&mut self, from: u8, to: u8) -> Vec<Task> {
        let at = usize::from(from);
        let turn = match from == SPRING_BIN.rack {
            true => BINS + SPRING_MOVES_TO.number - SPRING_BIN.number,
            false => self.random.below(usize::from(BINS)) as u8,
        };
        self.stations[at].place = to;
        let mut listed = self.labels_at(at, from);
        listed.retain(|(_, part, _)| part != RETURNS);
        let mut tasks = Vec::new();
        for (old, part, number) in listed {
            let number = (number - 1 + turn) % BINS + 1;
            let new = label(&part, Bin { rack: to, number });
            self.moved.push(old.clone());
            tasks.push(Task::new(at, Job::Move { old, new }));
        }
        tasks
    }
}

pub fn shuffle<T>(random: &mut Random, items: &mut [T]) {
    for last in (1..items.len()).rev() {
        items.swap(last, random.below(last + 1));
    }
}
