//! The console's lines as values: the table of commands, read from text and written as text
//! again, with the replies to them.

mod fields;
mod key;
mod line;
mod poke;
mod rack;
mod reply;
mod table;

pub use key::KeyToWrite;
pub use line::{line_to, parse, Line};
pub use poke::Poke;
pub use rack::Rack;
pub use reply::Reply;
pub use table::{Both, Command, Tool, Worded};

use limits::ACTORS;
use std::fmt;

/// What is wrong with a field or with a line.
pub type Reason = &'static str;

/// Why a line is no command, or cannot be carried out.
#[derive(Clone, Copy, PartialEq, Eq, Debug)]
pub struct Why {
    /// The field that the reason is about, counted from 1 after the command's word; none if it is
    /// the whole line.
    field: Option<usize>,
    reason: Reason,
}

impl From<Reason> for Why {
    fn from(reason: Reason) -> Why {
        Why {
            field: None,
            reason,
        }
    }
}

impl fmt::Display for Why {
    fn fmt(&self, to: &mut fmt::Formatter) -> fmt::Result {
        match self.field {
            Some(field) => write!(to, "field {field}: {}", self.reason),
            None => write!(to, "{}", self.reason),
        }
    }
}

/// The number of controllers: one for each actor.
pub const RACKS: usize = ACTORS;
/// The longest line.
pub const LINE_MAX: usize = 262_144;
/// The longest lent output.
pub const OUT_MAX: usize = 1_048_576;
/// The longest lent store.
pub const BUFFER_MAX: usize = 70_000;
