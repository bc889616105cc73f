//! From a line to the controller it speaks to and what it asks for, and back.

use super::fields::{rack, words, Fields, Written};
use super::table::{Both, Command, Tool, Worded};
use super::{Reason, Why};

/// What a line asks for.
#[derive(Clone, PartialEq, Eq, Debug)]
pub enum Line {
    Command(Command),
    Both(Both),
    Tool(Tool),
}

/// Reads a line that is neither blank nor a comment.
pub fn parse(line: &[u8]) -> Result<(usize, Line), Why> {
    let mut words = words(line)?;
    let mut word = words.next();
    let mut at = 0;
    if let Some(digits) = word.and_then(|word| word.strip_prefix(b"@")) {
        at = rack(digits)?;
        word = words.next();
    }
    let word = word.ok_or("missing command")?;
    let mut fields = Fields::new(words);
    let asked = read(word, &mut fields).map_err(|reason| fields.why(reason))?;
    Ok((at, asked.ok_or("unknown command")?))
}

/// What a word with the fields after it asks for; none if the tables lack the word.
fn read(word: &[u8], fields: &mut Fields) -> Result<Option<Line>, Reason> {
    let mut asked = Command::read(word, fields)?.map(Line::Command);
    if asked.is_none() {
        asked = Both::read(word, fields)?.map(Line::Both);
    }
    if asked.is_none() {
        asked = Tool::read(word, fields)?.map(Line::Tool);
    }
    if asked.is_some() {
        fields.end()?;
    }
    Ok(asked)
}

/// The line to a controller; an error is a line that the console does not read, with fields in
/// hexadecimal.
pub fn line_to(rack: usize, asked: &impl Worded) -> Written {
    let mut line = match rack {
        0 => asked.word().to_string(),
        _ => format!("@{rack} {}", asked.word()),
    };
    let mut is_whole = true;
    for field in asked.fields() {
        is_whole &= field.is_ok();
        let (Ok(field) | Err(field)) = field;
        line += &format!(" {field}");
    }
    match is_whole {
        true => Ok(line),
        false => Err(line),
    }
}
