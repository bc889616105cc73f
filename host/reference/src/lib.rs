//! The label set of a pick-to-light controller, written a second time from the rules
//! (documents 01 and 02) alone, to be compared with the product call by call.
//!
//! Nothing here works on bytes in place. A call reads state and store into sets of dots,
//! ordered maps and pairs of label and dot, works on those, and writes the bytes anew.
//! `rule` computes what demand 3 speaks of, apart from all of that.
#![forbid(unsafe_code)]

mod answer;
mod calls;
mod clock;
mod dot;
mod held;
mod image;
mod keys;
pub mod limits;
mod message;
mod rule;

pub use answer::*;
pub use calls::*;
pub use dot::{read_context, read_dots, Actor, Counter, Dot};
pub use held::State;
pub use image::crc32;
pub use keys::{read_key, write_key, KeyKind, KeyRead};
pub use message::{read_message, Message, MessageRead};
pub use rule::{Page, Rule};
