//! Making a script that shows a difference smaller: steps are dropped, then parts of steps, while
//! a difference stays.

use super::trial::{Act, Step, Trial, What};
use super::Engines;
use crate::script::{Both, Command};
use limits::{DOT_SIZE, STORE_MAX};
use std::time::{Duration, Instant};

/// How long to go on trying.
const PATIENCE: Duration = Duration::from_secs(60);

/// Room for every merged read: an entry is shorter than its keys.
const AMPLE: usize = 2 * STORE_MAX;

/// A script that ends in a difference, and what it is.
pub struct Shown {
    pub script: Vec<Step>,
    pub what: What,
}

/// Runs a script up to its first difference; none if there is none.
pub fn shown(engines: Engines, mut script: Vec<Step>) -> Option<Shown> {
    let mut trial = Trial::new(engines);
    let mut steps = script.iter().enumerate();
    let (last, what) = steps.find_map(|(at, step)| Some((at, trial.step(step).err()?)))?;
    script.truncate(last + 1);
    Some(Shown { script, what })
}

/// The smallest script found.
pub fn shrink(engines: Engines, mut best: Shown) -> Shown {
    let end = Instant::now() + PATIENCE;
    loop {
        let length = best.script.len();
        best = drop_steps(engines, best, end);
        let (next, changed) = drop_parts(engines, best, end);
        best = next;
        let smaller = changed || best.script.len() < length;
        if !smaller || Instant::now() > end {
            return renumber(engines, best);
        }
    }
}

/// Numbers the controllers from 0, as they come.
fn renumber(engines: Engines, best: Shown) -> Shown {
    let mut known = Vec::new();
    let mut number = |rack: &mut usize| {
        let number = known.iter().position(|known| known == rack);
        *rack = number.unwrap_or_else(|| {
            known.push(*rack);
            known.len() - 1
        });
    };
    let mut script = best.script.clone();
    for step in &mut script {
        match &mut step.act {
            Act::Both(Both::Merge { first, second, .. }) => {
                number(first);
                number(second);
            }
            _ => number(&mut step.rack),
        }
    }
    shown(engines, script).unwrap_or(best)
}

/// Drops stretches of steps, long ones first.
fn drop_steps(engines: Engines, mut best: Shown, end: Instant) -> Shown {
    let mut stretch = best.script.len() / 2;
    while stretch > 0 {
        let mut at = 0;
        while at + stretch <= best.script.len() && Instant::now() <= end {
            let mut script = best.script.clone();
            script.drain(at..at + stretch);
            match shown(engines, script) {
                Some(smaller) => best = smaller,
                None => at += stretch,
            }
        }
        stretch /= 2;
    }
    best
}

/// Drops parts of each step's arguments; tells whether any could be dropped.
fn drop_parts(engines: Engines, mut best: Shown, end: Instant) -> (Shown, bool) {
    let mut changed = false;
    let mut at = 0;
    while at < best.script.len() && Instant::now() <= end {
        let smaller = smaller(&best.script[at].act).into_iter();
        let mut tries = smaller.map(|act| {
            let mut script = best.script.clone();
            script[at].act = act;
            script
        });
        match tries.find_map(|script| shown(engines, script)) {
            Some(found) => {
                best = found;
                changed = true;
            }
            None => at += 1,
        }
    }
    (best, changed)
}

/// The same act with less in it: fewer keys, fewer dots, or a dot less in its context; and a merged
/// read with room for all, so that labels can go that only filled an output.
fn smaller(act: &Act) -> Vec<Act> {
    match act {
        Act::Keys(keys) => fewer(keys).into_iter().map(Act::Keys).collect(),
        Act::Dots(dots) => fewer(dots).into_iter().map(Act::Dots).collect(),
        Act::Command(Command::Add {
            label,
            context,
            out,
        }) => {
            let less = |context| Command::Add {
                label: label.clone(),
                context,
                out: *out,
            };
            fewer_dots(context).map(less).map(Act::Command).collect()
        }
        Act::Command(Command::Remove { context, out }) => {
            let less = |context| Command::Remove { context, out: *out };
            fewer_dots(context).map(less).map(Act::Command).collect()
        }
        Act::Both(Both::Merge { first, second, out }) if *out != AMPLE => {
            let (first, second, out) = (*first, *second, AMPLE);
            vec![Act::Both(Both::Merge { first, second, out })]
        }
        Act::Command(_) | Act::Both(_) | Act::Tool(_) => Vec::new(),
    }
}

/// The items without one stretch, long stretches first.
fn fewer<T: Clone>(items: &[T]) -> Vec<Vec<T>> {
    let mut fewer = Vec::new();
    let mut stretch = items.len().div_ceil(2);
    // Many items are cut in large pieces only: each try costs a run.
    while stretch > items.len() / 128 {
        for at in (0..items.len()).step_by(stretch) {
            let end = (at + stretch).min(items.len());
            fewer.push([&items[..at], &items[end..]].concat());
        }
        stretch /= 2;
    }
    fewer
}

fn fewer_dots(context: &[u8]) -> impl Iterator<Item = Vec<u8>> + '_ {
    let dots = context.len() / DOT_SIZE;
    let without =
        move |dot| [&context[..DOT_SIZE * dot], &context[DOT_SIZE * (dot + 1)..]].concat();
    (0..dots).map(without)
}
