//! Contexts of many dots: own add, own remove and taking in on an empty store, so that what is timed
//! is the context.

use super::messages::add;
use super::single::{copies, time};
use super::starts::{start, Start, NAME};
use super::stats::{Quartiles, Summary};
use super::table::columns;
use super::{names, Names, Plan, Sides, Stopped, SIDES};
use crate::script::Command;
use limits::{ACTOR_MAX, CONTEXT_DOTS_MAX, MESSAGE_MAX, TOMBSTONE_DOTS_MAX};
use ptl::{dots_to_bytes, Actor, Dot};
use std::io::{self, Write};

/// Dots of a context, beside none.
const SIZES: [usize; 2] = [16, CONTEXT_DOTS_MAX];
/// Bytes of the label.
const LABEL: usize = 2;
/// Dots in the tombstone: the longest context just fits.
const REMOVED: usize = TOMBSTONE_DOTS_MAX - CONTEXT_DOTS_MAX;
/// Events of each actor that the controller has seen.
const SEEN: u64 = 100;

#[derive(Clone, Copy)]
enum Call {
    Add,
    Remove,
    Take,
}

const CALLS: [Call; 3] = [Call::Add, Call::Remove, Call::Take];

impl Call {
    fn words(self) -> &'static str {
        match self {
            Call::Add => "own add",
            Call::Remove => "own remove",
            Call::Take => "taking in",
        }
    }

    /// The call with this context; taken in is an add of actor 2.
    fn command(self, label: &[u8], context: &[Dot]) -> Command {
        let out = MESSAGE_MAX;
        match self {
            Call::Add => Command::Add {
                label: label.to_vec(),
                context: dots_to_bytes(context),
                out,
            },
            Call::Remove => Command::Remove {
                context: dots_to_bytes(context),
                out,
            },
            Call::Take => Command::Take {
                message: add(NAME.as_bytes(), label, Dot::from((2, SEEN + 1)), context),
            },
        }
    }
}

/// What the dots of a context are to the controller.
#[derive(Clone, Copy, PartialEq, Eq, Debug)]
enum Kind {
    /// Seen, and not in the tombstone, which they join.
    Seen,
    /// Not seen: they join the clock.
    New,
}

const KINDS: [Kind; 2] = [Kind::Seen, Kind::New];

impl Kind {
    fn word(self) -> &'static str {
        match self {
            Kind::Seen => "seen",
            Kind::New => "new",
        }
    }

    fn context(self, number: usize) -> Vec<Dot> {
        match self {
            Kind::Seen => spread(number, 1, 1),
            Kind::New => spread(number, 2, SEEN + 2),
        }
    }
}

/// Dots of all actors from one on, as many of each, with every other counter from one on.
fn spread(number: usize, actor: u8, counter: u64) -> Vec<Dot> {
    let actors = (actor..=ACTOR_MAX).cycle();
    let each = usize::from(ACTOR_MAX + 1 - actor);
    let counters = (0..number).map(|index| counter + 2 * (index / each) as u64);
    let mut dots: Vec<Dot> = actors.zip(counters).map(Dot::from).collect();
    dots.sort();
    dots
}

/// A controller with an empty store, and a label.
fn beginning() -> Start {
    let mut start = start(LABEL, 0);
    let state = &mut start.rack.state;
    for actor in 1..=ACTOR_MAX {
        state.set_base(Actor(actor), SEEN);
    }
    let removed = spread(REMOVED, 1, 2);
    for (slot, dot) in removed.iter().enumerate() {
        state.set_slot(slot, *dot);
    }
    state.set_count(removed.len() as u64);
    start
}

/// Measures and writes the table.
pub fn context_table(sides: Sides, plan: Plan, report: &mut dyn Write) -> Result<(), Stopped> {
    head(names(sides), report)?;
    let Start { rack, label } = beginning();
    let copies = copies(rack.used());
    for call in CALLS {
        let measure = |context: &[Dot]| {
            let command = call.command(&label, context);
            time(sides, plan, &rack, vec![command], copies)
        };
        let without = measure(&[])?;
        writeln!(report, "{}", line(call, 0, "-", without).trim_end())?;
        for (kind, size) in KINDS
            .into_iter()
            .flat_map(|kind| SIZES.map(|size| (kind, size)))
        {
            let with = measure(&kind.context(size))?;
            let times = line(call, size, kind.word(), with);
            let added = per_dot(without, with, size).map(|time| format!("{time:>8.1}"));
            writeln!(report, "{times}  {}", added.concat())?;
        }
        report.flush()?;
    }
    Ok(())
}

/// What stands above the lines.
fn head(names: Names, report: &mut dyn Write) -> io::Result<()> {
    let (columns, added) = (columns(names), names.map(|name| format!("{name:>8}")));
    writeln!(
        report,
        "
Contexts of many dots on an empty store, in us: dots that were seen, which join a tombstone of {REMOVED}, and
new ones, which join the clock. ns a dot is what each dot adds to the call without any.
{:>119}
call       dots  kind{columns}    {}",
        "ns a dot",
        added.concat()
    )
}

/// A line but for what each dot adds.
fn line(call: Call, dots: usize, kind: &str, summary: Summary) -> String {
    let Summary { ratios, minima } = summary;
    let times = minima.map(|time| format!("{:>10.3}", time * 1e6)).concat();
    let ratios = ratios.map(Quartiles::cell).concat();
    format!("{:<10} {dots:>4}  {kind:<4}{times}  {ratios}", call.words())
}

/// Nanoseconds that each dot adds, product first.
fn per_dot(without: Summary, with: Summary, dots: usize) -> [f64; SIDES] {
    [0, 1, 2].map(|side| (with.minima[side] - without.minima[side]) * 1e9 / dots as f64)
}

#[cfg(test)]
mod tests {
    use super::*;
    use crate::engine::{Engine, PLAIN};
    use crate::script::Rack;

    /// Dots that join the tombstone, and whether the clock changes, where a call has this context.
    fn joined(call: Call, context: &[Dot]) -> (u64, bool) {
        let Start { mut rack, label } = beginning();
        let rows = |rack: &Rack| {
            let others = (2..=ACTOR_MAX).map(Actor);
            let row = |actor| (rack.state.base(actor), rack.state.window(actor));
            others.map(row).skip(1).collect::<Vec<_>>()
        };
        let (count, before) = (rack.state.count(), rows(&rack));
        let mut out = [0; MESSAGE_MAX];
        let reply = PLAIN.run(&mut rack, &call.command(&label, context), &mut out);
        assert_eq!(reply.answer(), 0);
        (rack.state.count() - count, rows(&rack) != before)
    }

    #[test]
    fn seen_dots_join_the_tombstone_and_new_ones_the_clock() {
        for (call, size) in CALLS
            .into_iter()
            .flat_map(|call| SIZES.map(|size| (call, size)))
        {
            let of = |kind: Kind| joined(call, &kind.context(size));
            assert_eq!(of(Kind::Seen), (size as u64, false));
            assert_eq!(of(Kind::New), (0, true));
        }
    }

    #[test]
    fn a_dot_adds_what_is_above_the_call_without_context() {
        let times = |time| Summary::of(&[[time, 2.0 * time, 3.0 * time]]);
        let added = per_dot(times(1e-6), times(3e-6), 16);
        let due = [125.0, 250.0, 375.0];
        let near = |(one, other): (f64, f64)| (one - other).abs() < 1e-6;
        assert!(added.into_iter().zip(due).all(near), "{added:?}");
    }
}
