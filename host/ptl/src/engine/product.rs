//! The product: the calls of the static library.

use super::Engine;
use crate::script::{Command, Rack, Reply};
use ptl::calls;

pub struct Product;

impl Engine for Product {
    fn name(&self) -> &'static str {
        "product"
    }

    fn run(&self, rack: &mut Rack, command: &Command, out: &mut [u8]) -> Reply {
        let Rack { state, store } = rack;
        match command {
            Command::Setup { actor, name } => Reply::Answered(calls::set_up(*actor, name, state)),
            Command::Add { label, context, .. } => {
                Reply::Wrote(calls::own_add(state, store, label, context, out))
            }
            Command::Remove { context, .. } => {
                Reply::Wrote(calls::own_remove(state, store, context, out))
            }
            Command::Take { message } => Reply::Answered(self.take_in(rack, message)),
            Command::List { .. } => Reply::Listed(calls::list(state, store, out)),
            Command::Page { start, .. } => Reply::Paged(calls::page(state, store, start, out)),
            Command::Lookup { label } => Reply::Looked(calls::lookup(state, store, label)),
            Command::Compact => Reply::Answered(calls::compact(state, store)),
            Command::Image { .. } => Reply::Wrote(calls::write_image(state, store, out)),
            Command::Load { actor, image } => {
                Reply::Answered(calls::load_image(*actor, image, state, store))
            }
            Command::Key { key, .. } => Reply::Wrote(key.written_by(calls::write_key, out)),
            Command::ReadKey { bytes } => Reply::Key(calls::read_key(bytes)),
            Command::ReadMessage { bytes } => Reply::Message(calls::read_message(bytes)),
        }
    }

    fn merge(&self, first: &Rack, second: &Rack, out: &mut [u8]) -> Reply {
        let (state, store) = (&first.state, &first.store);
        Reply::Listed(calls::merge(
            state,
            store,
            &second.state,
            &second.store,
            out,
        ))
    }

    fn take_in(&self, rack: &mut Rack, message: &[u8]) -> u8 {
        calls::take_in(&mut rack.state, &mut rack.store, message)
    }
}
