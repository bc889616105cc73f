//! The baseline in its forms, the calls in Rust: it works on the product's own blocks.

use super::Engine;
use crate::script::{Command, Rack, Reply};
use baseline::{Calls, Fastest, Plain, Tuned};
use ptl::calls::{KeyRead, Listed, Looked, MessageRead, Paged, Span, Wrote};
use std::marker::PhantomData;

/// A form of the baseline.
pub struct Baseline<F>(PhantomData<F>);

/// As an ordinary program has the calls.
pub const PLAIN: &Baseline<Plain> = &Baseline(PhantomData);
/// As a programmer writes them who counts cycles.
pub const TUNED: &Baseline<Tuned> = &Baseline(PhantomData);
/// The fastest form that we know of.
pub const FASTEST: &Baseline<Fastest> = &Baseline(PhantomData);

impl<F: Calls> Engine for Baseline<F> {
    fn name(&self) -> &'static str {
        F::NAME
    }

    fn run(&self, rack: &mut Rack, command: &Command, out: &mut [u8]) -> Reply {
        let (block, store) = (rack.state.block_mut(), &mut rack.store);
        match command {
            Command::Setup { actor, name } => {
                Reply::Answered(baseline::set_up(*actor, name, block))
            }
            Command::Add { label, context, .. } => {
                wrote(F::own_add(block, store, label, context, out))
            }
            Command::Remove { context, .. } => wrote(F::own_remove(block, store, context, out)),
            Command::Take { message } => Reply::Answered(self.take_in(rack, message)),
            Command::List { .. } => listed(F::list(block, store, out)),
            Command::Page { start, .. } => paged(F::page(block, store, start, out)),
            Command::Lookup { label } => looked(F::lookup(block, store, label)),
            Command::Compact => Reply::Answered(F::compact(block, store)),
            Command::Image { .. } => wrote(F::write_image(block, store, out)),
            Command::Load { actor, image } => {
                Reply::Answered(F::load_image(*actor, image, block, store))
            }
            Command::Key { key, .. } => wrote(key.written_by(baseline::write_key, out)),
            Command::ReadKey { bytes } => key(baseline::read_key(bytes)),
            Command::ReadMessage { bytes } => message(baseline::read_message(bytes)),
        }
    }

    fn merge(&self, first: &Rack, second: &Rack, out: &mut [u8]) -> Reply {
        let [one, two] = [first.state.block(), second.state.block()];
        listed(F::merge(one, &first.store, two, &second.store, out))
    }

    fn take_in(&self, rack: &mut Rack, message: &[u8]) -> u8 {
        F::take_in(rack.state.block_mut(), &mut rack.store, message)
    }
}

fn span(at: usize, len: usize) -> Span {
    Span { at, len }
}

fn wrote(wrote: baseline::Wrote) -> Reply {
    Reply::Wrote(Wrote {
        answer: wrote.answer,
        written: wrote.written,
    })
}

fn listed(listed: baseline::Listed) -> Reply {
    Reply::Listed(Listed {
        answer: listed.answer,
        written: listed.written,
        labels: listed.labels,
    })
}

fn paged(paged: baseline::Paged) -> Reply {
    Reply::Paged(Paged {
        answer: paged.answer,
        written: paged.written,
        labels: paged.labels,
        more: paged.more,
    })
}

fn looked(looked: baseline::Looked) -> Reply {
    Reply::Looked(Looked {
        answer: looked.answer,
        listed: looked.listed,
        found: span(looked.at, looked.len),
    })
}

fn key(read: baseline::KeyRead) -> Reply {
    Reply::Key(KeyRead {
        answer: read.answer,
        kind: read.kind,
        name: span(read.name_at, read.name_len),
        label: span(read.label_at, read.label_len),
        actor: read.actor,
        counter: read.counter,
    })
}

fn message(read: baseline::MessageRead) -> Reply {
    Reply::Message(MessageRead {
        answer: read.answer,
        kind: read.kind,
        name: span(read.name_at, read.name_len),
        label: span(read.label_at, read.label_len),
        actor: read.actor,
        counter: read.counter,
        context: span(read.context_at, read.context_len),
    })
}
