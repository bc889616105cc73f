//! A controller's state and its lent store, and the commands that look at them or damage them.

use super::fields::{dots, hex, joined, text};
use super::table::{Tool, Worded};
use super::Why;
use limits::{ACTOR_MAX, STORE_MAX, WINDOW};
use ptl::{Actor, State};

/// Hexadecimal digits of a window.
const WINDOW_DIGITS: usize = WINDOW as usize / 4;

#[derive(Clone, PartialEq, Eq)]
pub struct Rack {
    pub state: State,
    pub store: Vec<u8>,
}

impl Rack {
    /// As every controller starts: zero throughout, with the longest store.
    pub fn new() -> Rack {
        Rack {
            state: State::zero(),
            store: vec![0; STORE_MAX],
        }
    }

    /// How many bytes of the store are used: as many as the state says and there are.
    pub fn used(&self) -> usize {
        let used = usize::try_from(self.state.used()).unwrap_or(usize::MAX);
        used.min(self.store.len())
    }

    /// Lends another store: the used bytes are kept as far as they fit.
    pub fn lend(&mut self, length: usize, fill: u8) {
        let kept = self.used();
        self.store.truncate(kept);
        self.store.resize(length, fill);
    }

    /// Does what a tool is for; the output line.
    pub fn obey(&mut self, tool: &Tool) -> Result<String, Why> {
        let word = tool.word();
        match tool {
            Tool::State => Ok(self.state_line()),
            Tool::Store => Ok(format!("{word} {}", hex(&self.store))),
            Tool::Buffer { length, fill } => {
                self.lend(*length, *fill);
                Ok(format!("{word} {length}"))
            }
            Tool::Poke { poke } => poke.apply(self).map(|()| word.to_string()),
        }
    }

    /// The state as a line.
    pub fn state_line(&self) -> String {
        let state = &self.state;
        format!(
            "{} {} {} {} {} {}",
            Tool::State.word(),
            state.actor().0,
            text(state.name()),
            state.used(),
            clock(state),
            dots(&state.tombstone())
        )
    }
}

/// `actor:base:window` for each row that is not zero.
fn clock(state: &State) -> String {
    let rows = (1..=ACTOR_MAX).map(|actor| {
        let (base, window) = (state.base(Actor(actor)), state.window(Actor(actor)));
        let shown = (base, window) != (0, 0);
        shown.then(|| format!("{actor}:{base}:{window:0WINDOW_DIGITS$x}"))
    });
    joined(rows.flatten())
}
