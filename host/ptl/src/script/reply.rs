//! What a command gave, and its line.

use super::fields::{dots, hex, text, Field, KeyType};
use super::table::{Both, Command, Worded};
use ptl::calls::{KeyRead, Listed, Looked, MessageRead, Paged, Wrote};
use ptl::{dots_of, Dot};

#[derive(Clone, Copy, PartialEq, Eq, Debug)]
pub enum Reply {
    Answered(u8),
    Wrote(Wrote),
    Listed(Listed),
    Paged(Paged),
    Looked(Looked),
    Key(KeyRead),
    Message(MessageRead),
}

impl Reply {
    /// The answer's number.
    pub fn answer(&self) -> u8 {
        match self {
            Reply::Answered(answer) => *answer,
            Reply::Wrote(wrote) => wrote.answer,
            Reply::Listed(listed) => listed.answer,
            Reply::Paged(paged) => paged.answer,
            Reply::Looked(looked) => looked.answer,
            Reply::Key(read) => read.answer,
            Reply::Message(read) => read.answer,
        }
    }

    /// The output line; `out` is the output that the command was lent.
    pub fn line(&self, command: &Command, out: &[u8]) -> String {
        match command {
            Command::ReadKey { bytes } | Command::ReadMessage { bytes } => {
                self.worded(command, bytes, out)
            }
            _ => self.worded(command, &[], out),
        }
    }

    /// The output line of a call that read two controllers.
    pub fn line_of_both(&self, both: &Both, out: &[u8]) -> String {
        self.worded(both, &[], out)
    }

    /// The output line of what was asked, of bytes that were read or into an output.
    fn worded(&self, asked: &impl Worded, bytes: &[u8], out: &[u8]) -> String {
        let given = match self {
            Reply::Answered(_) => String::new(),
            Reply::Wrote(wrote) => format!(" {}", front(out, wrote.written)),
            Reply::Listed(listed) => format!(" {} {}", listed.labels, front(out, listed.written)),
            Reply::Paged(paged) => {
                let written = front(out, paged.written);
                format!(" {} {} {written}", paged.labels, follow(paged))
            }
            Reply::Looked(looked) => {
                let yes = if looked.listed { "yes" } else { "no" };
                format!(" {yes} {} {}", looked.found.at, looked.found.len)
            }
            Reply::Key(read) => key(read, bytes),
            Reply::Message(read) => message(read, bytes),
        };
        format!("{} {}{given}", asked.word(), self.answer())
    }
}

/// The bytes written at the front of an output.
fn front(out: &[u8], written: usize) -> String {
    hex(&out[..written.min(out.len())])
}

/// Whether more follow a page; `-` if it is refused.
fn follow(paged: &Paged) -> &'static str {
    match (paged.answer, paged.more) {
        (0, true) => "more",
        (0, false) => "ended",
        _ => "-",
    }
}

fn key(read: &KeyRead, bytes: &[u8]) -> String {
    format!(
        " {} {} {} {} {}",
        KeyType::write(&read.kind).unwrap_or("-".into()),
        text(read.name.of(bytes)),
        text(read.label.of(bytes)),
        read.actor,
        read.counter
    )
}

fn message(read: &MessageRead, bytes: &[u8]) -> String {
    let (kind, dot) = match read.kind {
        b'a' => ("add", Some(Dot::from((read.actor, read.counter)))),
        b'r' => ("remove", None),
        _ => ("-", None),
    };
    format!(
        " {kind} {} {} {} {}",
        text(read.name.of(bytes)),
        text(read.label.of(bytes)),
        dots(dot.as_slice()),
        dots(&dots_of(read.context.of(bytes)))
    )
}
