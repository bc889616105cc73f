//! The label set of a pick-to-light controller: a safe wrapper over its static library.
//!
//! `Controller` is a state with its store and the calls in Rust's own types; `formats`
//! reads and writes keys and messages. Below them, `calls` has every function of the library
//! on plain bytes and numbers, with the state as a value apart from the store lent to it.
//! `limits` has every limit and size.
//!
//! Any argument is answered, none panics. The types keep kinds apart (an actor is no counter);
//! whether a value keeps its rule is the library's to say, by its `Answer`.

mod answer;
pub mod calls;
mod controller;
mod ffi;
mod formats;
mod kinds;
mod state;

pub use answer::Answer;
pub use controller::{Controller, Entry, Found, Listing, Page};
pub use formats::{read_key, read_message, write_key, Key, Message};
pub use kinds::{dots_of, dots_to_bytes, Actor, Counter, Dot, Label, SetName};
pub use limits;
pub use state::State;
