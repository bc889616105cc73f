//! The label set of a pick-to-light controller in safe Rust: what the product is timed against.
//! The same calls, formats, state block and answers, and the same checks at every call, that of
//! the whole state and store included.
//!
//! A call judges the state in one pass over block and store, judges its arguments, and then works
//! in place on the bytes that it was lent. Nothing is allocated.
//!
//! There are three forms of the calls: `Plain`, as an ordinary program has them, `Tuned`, as a
//! programmer writes them who counts cycles, and `Fastest`, the fastest that we know of. They differ
//! in what `form::Form` names.
#![forbid(unsafe_code)]

mod answer;
mod block;
mod calls;
mod check;
mod clock;
mod crc;
mod dot;
mod effect;
mod fastest;
mod form;
mod image;
mod keys;
mod merging;
mod message;
mod plain;
mod reading;
mod store;
mod tombstone;
mod tuned;
mod words;

pub use answer::*;
pub use block::Block;
pub use calls::{set_up, Wrote};
pub use crc::crc32;
pub use fastest::Fastest;
pub use keys::{read_key, write_key, KeyRead};
pub use message::{read_message, MessageRead};
pub use plain::Plain;
pub use reading::{Listed, Looked, Paged};
pub use tuned::Tuned;

use calls::{compact, own_add, own_remove, take_in};
use form::Form;
use image::{load_image, write_image};
use merging::merge;
use reading::{list, lookup, page};

/// Defines the calls of a form, and compiles them here for all.
macro_rules! calls {
    ($(fn $call:ident($($given:ident: $kind:ty),*) -> $gives:ty;)*) => {
        /// The calls of a form; where each is defined, its answers are said.
        pub trait Calls {
            /// What reports call the form.
            const NAME: &'static str;
            $(fn $call($($given: $kind),*) -> $gives;)*
        }

        calls!(of Plain: $($call($($given: $kind),*) -> $gives;)*);
        calls!(of Tuned: $($call($($given: $kind),*) -> $gives;)*);
        calls!(of Fastest: $($call($($given: $kind),*) -> $gives;)*);
    };
    (of $form:ty: $($call:ident($($given:ident: $kind:ty),*) -> $gives:ty;)*) => {
        impl Calls for $form {
            const NAME: &'static str = <$form as Form>::NAME;
            $(fn $call($($given: $kind),*) -> $gives { $call::<$form>($($given),*) })*
        }
    };
}

calls! {
    fn own_add(
        block: &mut Block, store: &mut [u8], label: &[u8], context: &[u8], out: &mut [u8]
    ) -> Wrote;
    fn own_remove(block: &mut Block, store: &[u8], context: &[u8], out: &mut [u8]) -> Wrote;
    fn take_in(block: &mut Block, store: &mut [u8], message: &[u8]) -> u8;
    fn list(block: &Block, store: &[u8], out: &mut [u8]) -> Listed;
    fn page(block: &Block, store: &[u8], start: &[u8], out: &mut [u8]) -> Paged;
    fn merge(
        first: &Block, first_store: &[u8], second: &Block, second_store: &[u8], out: &mut [u8]
    ) -> Listed;
    fn lookup(block: &Block, store: &[u8], label: &[u8]) -> Looked;
    fn compact(block: &mut Block, store: &mut [u8]) -> u8;
    fn write_image(block: &Block, store: &[u8], out: &mut [u8]) -> Wrote;
    fn load_image(actor: u8, image: &[u8], block: &mut Block, store: &mut [u8]) -> u8;
}
