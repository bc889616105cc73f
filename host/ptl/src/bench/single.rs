//! One call at a time: on stores of five sizes, with labels of two lengths.

use super::pages::page_of_ten;
use super::rounds::{differing_byte, first_difference, rounds, Workload};
use super::starts::{start, Start, CONTEXT};
use super::stats::Summary;
use super::table::Row;
use super::{floor, Plan, Sides, Stopped};
use crate::engine::Engine;
use crate::script::{Command, Rack, Reply, Worded};
use limits::{LABEL_MAX, MESSAGE_MAX, STORE_MAX};
use ptl::{dots_to_bytes, Dot};

/// Used bytes of the store, or a few less.
pub const SIZES: [usize; 5] = [0, 1 << 10, 4 << 10, 16 << 10, STORE_MAX];
/// Bytes of a label.
pub const LABELS: [usize; 2] = [2, LABEL_MAX];
/// The calls.
pub const CALLS: [Call; 5] = [
    Call::Add,
    Call::Remove,
    Call::List,
    Call::Lookup,
    Call::Compact,
];

/// The calls that are timed on the largest store alone: pages of ten labels.
pub const PAGES: [Call; 2] = [Call::FrontPage, Call::MiddlePage];

#[derive(Clone, Copy, PartialEq, Eq, Debug)]
pub enum Call {
    Add,
    Remove,
    List,
    Lookup,
    Compact,
    FrontPage,
    MiddlePage,
}

impl Call {
    fn words(self) -> &'static str {
        match self {
            Call::Add => "own add",
            Call::Remove => "own remove",
            Call::List => "listing",
            Call::Lookup => "lookup",
            Call::Compact => "compaction",
            Call::FrontPage => "page front",
            Call::MiddlePage => "page mid",
        }
    }

    fn command(self, start: &Start) -> Command {
        let dots: Vec<Dot> = CONTEXT.into_iter().map(Dot::from).collect();
        let (label, out) = (start.label.clone(), MESSAGE_MAX);
        match self {
            Call::Add => Command::Add {
                label,
                context: dots_to_bytes(&dots[..1]),
                out,
            },
            Call::Remove => Command::Remove {
                context: dots_to_bytes(&dots),
                out,
            },
            Call::List => Command::List {
                out: start.rack.store.len(),
            },
            Call::Lookup => Command::Lookup { label },
            Call::Compact => Command::Compact,
            Call::FrontPage => page_of_ten(&start.rack, Vec::new()),
            Call::MiddlePage => page_of_ten(&start.rack, label),
        }
    }
}

/// Calls one after another, on a number of copies of a controller.
struct Calls {
    commands: Vec<Command>,
    start: Vec<Buffers>,
}

/// A copy, with the output and the reply of each call.
#[derive(Clone)]
struct Buffers {
    rack: Rack,
    outs: Vec<Vec<u8>>,
    replies: Vec<Reply>,
}

impl Buffers {
    fn run(&mut self, engine: &dyn Engine, commands: &[Command]) {
        let left = self.outs.iter_mut().zip(&mut self.replies);
        for (command, (out, reply)) in commands.iter().zip(left) {
            *reply = engine.run(&mut self.rack, command, out);
        }
    }

    /// What is wrong with what a call left here and on the other side, if anything is.
    fn difference(&self, other: &Buffers, call: usize) -> Option<String> {
        let replies = [self.replies[call], other.replies[call]];
        let outs = [self.outs[call].as_slice(), &other.outs[call]];
        match replies {
            [product, baseline] if product != baseline => {
                Some(format!("product {product:?}, baseline {baseline:?}"))
            }
            [reply, _] if reply.answer() != 0 => Some(format!("not accepted, {reply:?}")),
            _ => first_difference("output byte", outs)
                .or_else(|| differing_byte(&self.rack, &other.rack)),
        }
    }
}

impl Workload for Calls {
    type Buffers = Vec<Buffers>;

    fn start(&self) -> &Vec<Buffers> {
        &self.start
    }

    fn run(&self, engine: &dyn Engine, buffers: &mut Vec<Buffers>) {
        for copy in buffers {
            copy.run(engine, &self.commands);
        }
    }

    fn difference(&self, product: &Vec<Buffers>, other: &Vec<Buffers>) -> Option<String> {
        let mut copies = product.iter().zip(other);
        copies.find_map(|(product, other)| {
            let mut commands = self.commands.iter().enumerate();
            commands.find_map(|(call, command)| {
                let what = product.difference(other, call)?;
                Some(format!("{}: {what}", command.word()))
            })
        })
    }
}

/// Times calls one after another on so many copies of a controller: of one copy, all calls.
pub fn time(
    sides: Sides,
    plan: Plan,
    rack: &Rack,
    commands: Vec<Command>,
    copies: usize,
) -> Result<Summary, Stopped> {
    let outs = commands.iter().map(|command| vec![0xA5; command.out()]);
    let buffers = Buffers {
        rack: rack.clone(),
        outs: outs.collect(),
        replies: vec![Reply::Answered(u8::MAX); commands.len()],
    };
    let start = vec![buffers; copies];
    let summary = rounds(sides, &Calls { commands, start }, plan.single_rounds)?;
    Ok(summary.share(copies))
}

/// Measures one call on one size of store with labels of one length.
pub fn measure(
    sides: Sides,
    plan: Plan,
    call: Call,
    label: usize,
    size: usize,
) -> Result<Row, Stopped> {
    let start = start(label, size);
    let command = call.command(&start);
    measure_on(sides, plan, &start.rack, command, (call.words(), label))
}

/// Measures one call on a controller, to be told of in these words, with labels of so many bytes.
pub fn measure_on(
    sides: Sides,
    plan: Plan,
    rack: &Rack,
    command: Command,
    (what, bytes): (&'static str, usize),
) -> Result<Row, Stopped> {
    let used = rack.used();
    let copies = copies(used);
    let summary = time(sides, plan, rack, vec![command], copies)?;
    let floor = floor::time(&vec![used; copies], plan.single_rounds);
    Ok(Row {
        what,
        bytes,
        used,
        summary,
        floor: floor / copies as f64,
    })
}

/// As many copies as stay in a cache near the core, enough of them for the clock to tell, and at
/// most 64.
pub fn copies(used: usize) -> usize {
    ((128 << 10) / (used + 2048)).clamp(1, 64)
}
