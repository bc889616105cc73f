//! Days in which the premise is broken, as it is asked for, and what comes of it: boxes that accepted
//! the same messages and list different labels (`Disagree` in `crates/replica/specs/Network.antt`).

use super::agreement::labels_of;
use super::day::{shuffle, Plan};
use super::floor::Floor;
use super::goods::{label, Bin, BINS, BOXES, PARTS};
use super::hold::{pair_text, pairs};
use super::premise::Pair;
use super::swap::may_die;
use super::work::{Job, Task};
use std::collections::BTreeSet;

const SAME_ACTOR: &str = "\
Against the premise: at lunch a second box dies, and its place is taken under the spare one's actor.";
const FORGET: &str = "\
Against the premise: in the evening a box comes back with the state and store of its last image,
under its own actor, and goes on adding.";
const UNHEEDED: &str = "\
Answer 8, which would tell of it, is not heeded: the message is taken in again later.";

/// What breaks the premise. Nobody heeds answer 8, which would tell of it: the message is kept, and
/// taken in again later.
#[derive(Clone, Copy, PartialEq, Eq, Debug, Default)]
pub struct Breach {
    /// In the evening a box comes back with the state and store of an earlier moment, under its own
    /// actor, and goes on adding.
    pub forget: bool,
    /// At lunch two boxes die, and both places are taken under one actor.
    pub same_actor: bool,
}

impl Breach {
    pub fn is_asked(self) -> bool {
        self != Breach::default()
    }

    /// What will be done, in lines.
    pub fn stories(self) -> Vec<&'static str> {
        let stories = [
            (self.same_actor, SAME_ACTOR),
            (self.forget, FORGET),
            (self.is_asked(), UNHEEDED),
        ];
        let told = stories.into_iter().filter(|(is_asked, _)| *is_asked);
        told.map(|(_, story)| story).collect()
    }
}

/// The box that forgot.
#[derive(Clone, Copy, PartialEq, Eq, Debug)]
pub struct Forgot {
    at: usize,
    /// Calls that it had kept since the moment that it came back to, and the own adds among them.
    age: usize,
    own_adds: u64,
}

impl Floor<'_> {
    /// Breaks the premise, if that is asked for in a phase with this plan.
    pub fn break_premise(&mut self, plan: Plan) {
        match plan {
            Plan::Move if self.breach.same_actor => self.swap(),
            Plan::GetThrough if self.breach.forget => self.forget(),
            _ => {}
        }
    }

    /// The box that has made the most own adds since its image comes back as it was then.
    fn forget(&mut self) {
        let forgot = may_die().filter_map(|at| self.forgot_of(at));
        let Some(forgot) = forgot.max_by_key(|forgot| forgot.own_adds) else {
            return;
        };
        let fill = self.random.byte();
        self.stations[forgot.at].put_back(fill, self.tick);
        self.forgot = Some(forgot);
    }

    /// What a box would forget; none if it has written no image.
    fn forgot_of(&self, at: usize) -> Option<Forgot> {
        let station = &self.stations[at];
        Some(Forgot {
            at,
            age: station.age_of_image()?,
            own_adds: station.own_adds_since_image()?,
        })
    }

    /// For each own add that was forgotten the box that forgot makes another, of a label that was never
    /// written. It then knows as many own events as the others do of it, and gets no answer 8 any more.
    pub fn going_on(&mut self) -> Vec<Task> {
        let Some(Forgot { at, own_adds, .. }) = self.forgot else {
            return Vec::new();
        };
        let rack = self.stations[at].place;
        let bins = (1..=BINS).map(|number| Bin { rack, number });
        let labels = bins.flat_map(|bin| PARTS.map(|part| label(part, bin)));
        let mut labels: Vec<Vec<u8>> = labels.filter(|l| !self.labels.contains(l)).collect();
        shuffle(&mut self.random, &mut labels);
        labels.truncate(own_adds as usize);
        let puts = labels.into_iter().map(Job::Put);
        puts.map(|job| Task::new(at, job)).collect()
    }

    /// What was forgotten, in words.
    pub fn forgot_told(&self) -> Option<String> {
        let Forgot { at, age, own_adds } = self.forgot?;
        let number = at + 1;
        Some(format!(
            "In the evening box {number} came back with the state and store of its last image, {age} calls old. Own\n\
             adds that it had forgotten: {own_adds}."
        ))
    }

    /// What came of a premise that broke, in words.
    pub fn came_of_it(&self) -> String {
        let apart = self.disagreeing();
        let Some((one, two)) = apart.first().copied() else {
            return "No two boxes accepted the same messages and list different labels.".into();
        };
        let listed = [one, two].map(|at| pairs(&self.stations[at].entries(self.engine)));
        let example = example(&listed).map_or(String::new(), |labels| {
            let [first, second] = labels.each_ref().map(pair_text);
            format!(": the one lists {first}, the other {second}")
        });
        let (number, messages) = (apart.len(), self.stations[one].accepted().len());
        let (one, two) = (one + 1, two + 1);
        format!(
            "Pairs of boxes that accepted the same messages and list different labels: {number}. For one, boxes\n\
             {one} and {two} accepted the same {messages} messages{example}."
        )
    }

    /// The pairs of boxes that accepted the same messages and list different labels.
    fn disagreeing(&self) -> Vec<(usize, usize)> {
        let stations = self.stations.iter();
        let seen: Vec<(Vec<usize>, BTreeSet<Vec<u8>>)> = stations
            .map(|station| (station.accepted(), labels_of(&station.entries(self.engine))))
            .collect();
        let pairs = (0..BOXES).flat_map(|one| (one + 1..BOXES).map(move |two| (one, two)));
        let disagree = |(one, two): &(usize, usize)| {
            seen[*one].0 == seen[*two].0 && seen[*one].1 != seen[*two].1
        };
        pairs.filter(disagree).collect()
    }
}

/// A dot that two boxes list under different labels, of which one is not listed by both.
fn example([one, two]: &[BTreeSet<Pair>; 2]) -> Option<[Pair; 2]> {
    let lists = |listed: &BTreeSet<Pair>, label| listed.iter().any(|(of, _)| of == label);
    let all = one
        .iter()
        .flat_map(|first| two.iter().map(move |second| [first, second]));
    let mut apart = all.filter(|[first, second]| {
        let differ = first.1 == second.1 && first.0 != second.0;
        differ && !(lists(two, &first.0) && lists(one, &second.0))
    });
    apart.next().map(|both| both.map(Pair::clone))
}
