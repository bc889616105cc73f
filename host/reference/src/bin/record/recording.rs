//! A recording in the making: its lines, and the console that answers them meanwhile.

use crate::console::Console;
use crate::fields::{dots_of, hex, hex_of, text_of};
use reference::{list, merge, DONE};
use std::collections::BTreeMap;

/// An output in which everything has room.
pub const AMPLE: usize = 1024;
/// The controllers that are spoken to.
pub const CONTROLLERS: usize = 4;
/// The commands that are calls.
pub const CALLS: [&str; 14] = [
    "setup",
    "add",
    "remove",
    "take",
    "list",
    "page",
    "merge",
    "lookup",
    "compact",
    "image",
    "load",
    "key",
    "readkey",
    "readmessage",
];
/// The calls that may change a state or a store.
const CHANGING: [&str; 6] = ["setup", "add", "remove", "take", "compact", "load"];
/// After so many of them state and store are shown.
const SHOWN_AFTER: usize = 4;

/// How often each call gave each answer.
pub type Tally = BTreeMap<(&'static str, u8), u64>;

pub struct Recording {
    console: Console,
    pub lines: Vec<String>,
    pub calls: usize,
    pub tally: Tally,
    /// For each controller the number of calls since it was shown that may have changed it.
    unshown: [usize; CONTROLLERS],
}

impl Recording {
    pub fn new() -> Recording {
        Recording {
            console: Console::new(),
            lines: Vec::new(),
            calls: 0,
            tally: Tally::new(),
            unshown: [0; CONTROLLERS],
        }
    }

    /// A comment above the lines that follow.
    pub fn note(&mut self, text: &str) {
        self.lines.push(format!("# {text}"));
    }

    pub fn node(&mut self, at: usize) -> Node<'_> {
        Node {
            recording: self,
            at,
        }
    }

    /// A node that starts anew, after what it was before has been shown.
    pub fn start(&mut self, at: usize, actor: u8, name: &[u8], length: usize) -> Node<'_> {
        let mut node = self.node(at);
        node.show();
        node.set_up(actor, name);
        node.buffer(length);
        node
    }

    /// Shows every node that was not shown since its last change.
    pub fn end(&mut self) {
        for at in 0..CONTROLLERS {
            self.node(at).show();
        }
    }

    fn count(&mut self, at: usize, command: &str, reply: &Reply) {
        let word = command.split(' ').next();
        let Some(call) = CALLS.into_iter().find(|call| Some(*call) == word) else {
            return;
        };
        let Some(answer) = reply.answer else {
            return;
        };
        self.calls += 1;
        *self.tally.entry((call, answer)).or_default() += 1;
        self.unshown[at] += usize::from(CHANGING.contains(&call));
    }
}

/// What a line gave: the answer, if it was a call, and the last field's bytes, if it has any.
pub struct Reply {
    pub answer: Option<u8>,
    pub written: Vec<u8>,
}

impl Reply {
    fn of(said: &str) -> Reply {
        let fields: Vec<&str> = said.split(' ').collect();
        let last = fields[fields.len() - 1];
        Reply {
            answer: fields.get(1).and_then(|field| field.parse().ok()),
            written: hex(last.as_bytes()).unwrap_or_default(),
        }
    }

    /// The message that an accepted own call wrote.
    pub fn message(self) -> Option<Vec<u8>> {
        (self.answer == Some(DONE)).then_some(self.written)
    }
}

/// A controller whose calls are recorded.
pub struct Node<'a> {
    recording: &'a mut Recording,
    at: usize,
}

impl Node<'_> {
    /// Records a line without its `@K`, and answers it.
    pub fn say(&mut self, command: &str) -> Reply {
        let line = match self.at {
            0 => command.to_string(),
            at => format!("@{at} {command}"),
        };
        let said = self.recording.console.answer(line.as_bytes());
        let reply = Reply::of(&said.expect("neither blank nor a comment"));
        self.recording.lines.push(line);
        self.recording.count(self.at, command, &reply);
        if self.recording.unshown[self.at] >= SHOWN_AFTER {
            self.show();
        }
        reply
    }

    /// Shows state and store, if a call may have changed them.
    pub fn show(&mut self) {
        if std::mem::take(&mut self.recording.unshown[self.at]) > 0 {
            self.say("state");
            self.say("store");
        }
    }

    pub fn set_up(&mut self, actor: u8, name: &[u8]) {
        self.say(&format!("setup {actor} {}", text_of(name)));
    }

    /// Own add; a context is nine bytes a dot.
    pub fn add(&mut self, label: &[u8], context: &[u8]) -> Reply {
        self.add_into(label, context, AMPLE)
    }

    pub fn add_into(&mut self, label: &[u8], context: &[u8], out: usize) -> Reply {
        let (label, context) = (text_of(label), dots_of(context));
        self.say(&format!("add {label} {context} {out}"))
    }

    pub fn remove(&mut self, context: &[u8]) -> Reply {
        self.remove_into(context, AMPLE)
    }

    pub fn remove_into(&mut self, context: &[u8], out: usize) -> Reply {
        self.say(&format!("remove {} {out}", dots_of(context)))
    }

    pub fn take(&mut self, message: &[u8]) {
        self.say(&format!("take {}", hex_of(message)));
    }

    pub fn read_message(&mut self, message: &[u8]) {
        self.say(&format!("readmessage {}", hex_of(message)));
    }

    pub fn read_key(&mut self, key: &[u8]) {
        self.say(&format!("readkey {}", hex_of(key)));
    }

    pub fn list(&mut self, out: usize) {
        self.say(&format!("list {out}"));
    }

    pub fn page(&mut self, start: &[u8], out: usize) {
        self.say(&format!("page {} {out}", text_of(start)));
    }

    /// This controller and another, or itself, read as one.
    pub fn merge(&mut self, other: usize, out: usize) {
        let at = self.at;
        self.say(&format!("merge @{at} @{other} {out}"));
    }

    pub fn lookup(&mut self, label: &[u8]) {
        self.say(&format!("lookup {}", text_of(label)));
    }

    pub fn compact(&mut self) {
        self.say("compact");
    }

    pub fn image(&mut self, out: usize) -> Reply {
        self.say(&format!("image {out}"))
    }

    pub fn load(&mut self, actor: u8, image: &[u8]) -> Reply {
        self.say(&format!("load {actor} {}", hex_of(image)))
    }

    /// Lends a store of another length. What stands past the used bytes is lost, so it is shown first.
    pub fn lend(&mut self, length: usize) {
        self.show();
        self.buffer(length);
    }

    fn buffer(&mut self, length: usize) {
        let fill = 200 + self.recording.calls % 50;
        self.say(&format!("buffer {length} {fill}"));
    }

    pub fn state(&self) -> &reference::State {
        &self.recording.console.controllers[self.at].state
    }

    /// The listing's bytes, not recorded.
    pub fn listing(&self) -> Vec<u8> {
        let store = &self.recording.console.controllers[self.at].store;
        let mut out = vec![0; store.len()];
        let done = list(self.state(), store, &mut out);
        out.truncate(done.written as usize);
        out
    }

    /// The bytes that a merged read takes, not recorded; 0 if it is refused.
    pub fn merged_length(&self, other: usize) -> usize {
        let controllers = &self.recording.console.controllers;
        let [one, two] = [self.at, other].map(|at| &controllers[at]);
        let mut out = vec![0; one.store.len() + two.store.len()];
        let done = merge(&one.state, &one.store, &two.state, &two.store, &mut out);
        done.written as usize
    }

    /// The dots listed, in nine bytes each.
    pub fn live(&self) -> Vec<[u8; 9]> {
        let listing = self.listing();
        let (mut rest, mut live) = (&listing[..], Vec::new());
        while let [length, after @ ..] = rest {
            let (count, after) = after[usize::from(*length)..].split_at(2);
            let count = usize::from(u16::from_be_bytes([count[0], count[1]]));
            let (dots, after) = after.split_at(9 * count);
            let nine = |dot: &[u8]| <[u8; 9]>::try_from(dot).expect("nine bytes");
            live.extend(dots.chunks(9).map(nine));
            rest = after;
        }
        live.sort();
        live
    }
}
