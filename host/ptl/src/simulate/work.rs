//! What people ask of a box: to put a part in a bin, to clear one, to move a label.

use super::floor::Floor;
use super::goods::{label, part_and_bin, Bin, BINS, PARTS, RETURNS, RETURNS_BIN, SPRING};
use crate::script::Command;
use limits::{CONTEXT_DOTS_MAX, MESSAGE_MAX};
use ptl::{dots_to_bytes, Dot, Entry};

pub enum Job {
    /// A label is added.
    Put(Vec<u8>),
    /// A label is added with the dots of another as context, which takes the other away.
    Move { old: Vec<u8>, new: Vec<u8> },
    /// All dots of a label are removed.
    Clear(Vec<u8>),
    /// Whatever is to be done at a rack.
    Any,
}

/// A job for a box.
pub struct Task {
    pub at: usize,
    pub job: Job,
    /// How often it has failed.
    pub tries: usize,
}

impl Task {
    pub fn new(at: usize, job: Job) -> Task {
        Task { at, job, tries: 0 }
    }
}

/// How a task went.
pub enum Done {
    Yes,
    /// It is to be done later.
    NotNow,
    /// The power failed, or the box refused.
    Failed,
}

impl Floor<'_> {
    /// Does a task. Where there is nothing to do it is done.
    pub fn work(&mut self, task: &Task) -> Done {
        let at = task.at;
        if !self.is_on(at) {
            return match task.job {
                Job::Any => Done::Yes,
                _ => Done::NotNow,
            };
        }
        let command = match &task.job {
            Job::Put(label) => Some(add(label.clone(), &[])),
            Job::Move { old, new } => {
                let dots = self.dots(at, old);
                dots.map(|dots| add(new.clone(), &dots))
            }
            Job::Clear(label) => self.dots(at, label).map(|dots| remove(&dots)),
            Job::Any => self.any_work(at),
        };
        match command.is_none_or(|command| self.own(at, &command)) {
            true => Done::Yes,
            false => Done::Failed,
        }
    }

    /// The labels that a box lists at a rack, each with its part and the bin's number.
    pub fn labels_at(&self, at: usize, rack: u8) -> Vec<(Vec<u8>, String, u8)> {
        let entries = self.stations[at].entries(self.engine);
        let labels = entries.into_iter().filter_map(|entry| {
            let label = entry.label.0;
            let (part, bin) = part_and_bin(&label)?;
            let (part, number) = (part.to_string(), bin.number);
            (bin.rack == rack).then_some((label, part, number))
        });
        labels.collect()
    }

    /// The dots of a label that a box lists.
    fn dots(&self, at: usize, label: &[u8]) -> Option<Vec<Dot>> {
        let entries = self.stations[at].entries(self.engine);
        let entry = entries.into_iter().find(|entry| entry.label.0 == label)?;
        Some(entry.dots)
    }

    /// What is to be done at the box's rack, or now and then at another. The gas springs and the
    /// returns stay.
    fn any_work(&mut self, at: usize) -> Option<Command> {
        let place = self.stations[at].place;
        let mut entries = self.stations[at].entries(self.engine);
        let free = free_bins(&entries, place);
        entries.retain(|entry| ![Some(SPRING), Some(RETURNS)].contains(&part(entry)));
        let (mine, others): (Vec<Entry>, Vec<Entry>) = entries
            .into_iter()
            .partition(|entry| rack(entry) == Some(place));
        let bin = self.random.any(&free);
        match (self.random.below(100), bin) {
            (0..=39, Some(bin)) => Some(add(label(self.random.pick(&PARTS), bin), &[])),
            (40..=64, Some(bin)) => {
                let entry = self.random.any(&mine)?;
                Some(add(label(part(&entry)?, bin), &entry.dots))
            }
            (65..=69, _) => Some(add(self.random.any(&mine)?.label.0, &[])),
            (70..=76, _) => self.work_elsewhere(&others),
            _ => Some(remove(&self.random.any(&mine)?.dots)),
        }
    }

    /// A label of another rack is cleared or put there anew.
    fn work_elsewhere(&mut self, others: &[Entry]) -> Option<Command> {
        let entry = self.random.any(others)?;
        match self.random.chance(50) {
            true => Some(remove(&entry.dots)),
            false => Some(add(entry.label.0, &entry.dots)),
        }
    }
}

fn part(entry: &Entry) -> Option<&str> {
    part_and_bin(&entry.label.0).map(|(part, _)| part)
}

fn rack(entry: &Entry) -> Option<u8> {
    part_and_bin(&entry.label.0).map(|(_, bin)| bin.rack)
}

/// The bins of a rack that no listed label speaks of, but for that of the returns.
fn free_bins(entries: &[Entry], rack: u8) -> Vec<Bin> {
    let bins = entries
        .iter()
        .filter_map(|entry| part_and_bin(&entry.label.0));
    let taken: Vec<Bin> = bins.map(|(_, bin)| bin).chain([RETURNS_BIN]).collect();
    let all = (1..=BINS).map(|number| Bin { rack, number });
    all.filter(|bin| !taken.contains(bin)).collect()
}

fn add(label: Vec<u8>, context: &[Dot]) -> Command {
    Command::Add {
        label,
        context: context_bytes(context),
        out: MESSAGE_MAX,
    }
}

fn remove(context: &[Dot]) -> Command {
    Command::Remove {
        context: context_bytes(context),
        out: MESSAGE_MAX,
    }
}

/// As many of the dots as a context takes.
fn context_bytes(dots: &[Dot]) -> Vec<u8> {
    dots_to_bytes(&dots[..dots.len().min(CONTEXT_DOTS_MAX)])
}
