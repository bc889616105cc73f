//! The console of this program: one line in, one line out.

use crate::controller::Controller;
use crate::fields::{about, at, byte, dots, hex, key_type, name, number, row, size, text};
use crate::fields::{controller, dots_of, hex_of, text_of, Fields, Why, CONTROLLERS};
use reference::*;

/// The longest line, lent output and lent store.
const LINE: usize = 262_144;
const OUT: usize = 1_048_576;
const BUFFER: usize = 70_000;
/// The last slot of the tombstone.
const LAST_SLOT: usize = 127;

pub struct Console {
    pub controllers: Vec<Controller>,
}

impl Console {
    pub fn new() -> Console {
        let controllers = (0..CONTROLLERS).map(|_| Controller::new());
        Console {
            controllers: controllers.collect(),
        }
    }

    /// The output line of a line; none for a blank one or a comment.
    pub fn answer(&mut self, line: &[u8]) -> Option<String> {
        let said = match line {
            _ if line.len() > LINE => Err("line over 262144 bytes".to_string()),
            [] | [b'#', ..] => return None,
            _ => self.obey(line),
        };
        Some(said.unwrap_or_else(|why| format!("? {why}")))
    }

    fn obey(&mut self, line: &[u8]) -> Result<String, Why> {
        if line.contains(&b'\r') {
            return Err("carriage return".to_string());
        }
        let words: Vec<&[u8]> = line.split(|byte| *byte == b' ').collect();
        if words.contains(&&b""[..]) {
            return Err("space at an end or two spaces".to_string());
        }
        let (spoken_to, command) = match words[0].strip_prefix(b"@") {
            Some(digits) => (controller(digits)?, &words[1..]),
            None => (0, &words[..]),
        };
        let (word, given) = command.split_first().ok_or("missing command")?;
        let given = Fields(given);
        if *word == b"merge" {
            let (first, second) = (given.field(1, at)?, given.field(2, at)?);
            let out = given.last(3, size::<OUT>)?;
            return Ok(self.controllers[first].merge(&self.controllers[second], out));
        }
        let controller = &mut self.controllers[spoken_to];
        match *word {
            b"poke" => poke(controller, &given),
            b"key" => key_line(&given),
            b"readkey" => given.last(1, hex).map(|key| read_key_line(&key)),
            b"readmessage" => given.last(1, hex).map(|bytes| read_message_line(&bytes)),
            _ => call(controller, word, &given),
        }
    }
}

/// All that the console writes for an input.
pub fn answers(input: &[u8]) -> String {
    let mut console = Console::new();
    let lines = input.split(|byte| *byte == b'\n');
    let said = lines.filter_map(|line| console.answer(line));
    said.map(|line| line + "\n").collect()
}

/// Commands that speak to a controller.
fn call(controller: &mut Controller, word: &[u8], given: &Fields) -> Result<String, Why> {
    Ok(match word {
        b"setup" => controller.set_up(given.field(1, byte)?, &given.last(2, text)?),
        b"add" => {
            let (label, context) = (given.field(1, text)?, given.field(2, dots)?);
            controller.add(&label, &context, given.last(3, size::<OUT>)?)
        }
        b"remove" => controller.remove(&given.field(1, dots)?, given.last(2, size::<OUT>)?),
        b"take" => controller.take(&given.last(1, hex)?),
        b"list" => controller.list(given.last(1, size::<OUT>)?),
        b"page" => controller.page(&given.field(1, text)?, given.last(2, size::<OUT>)?),
        b"lookup" => controller.lookup(&given.last(1, text)?),
        b"compact" => given.end(0).map(|()| controller.compact())?,
        b"image" => controller.image(given.last(1, size::<OUT>)?),
        b"load" => controller.load(given.field(1, byte)?, &given.last(2, hex)?),
        b"state" => given.end(0).map(|()| controller.shown_state())?,
        b"store" => given.end(0).map(|()| controller.shown_store())?,
        b"buffer" => controller.lend(given.field(1, size::<BUFFER>)?, given.last(2, byte)?),
        _ => return Err("unknown command".to_string()),
    })
}

/// `poke`: a field of the state or a byte of the store, set whatever that breaks.
fn poke(controller: &mut Controller, given: &Fields) -> Result<String, Why> {
    match given.word(1)? {
        b"used" => controller.state.used = given.last(2, number)?,
        b"actor" => controller.state.actor = given.last(2, byte)?,
        b"name" => controller.set_name(&given.last(2, name)?),
        b"namelen" => controller.state.name_len = given.last(2, number)?,
        b"base" => controller.set_row(given.field(2, row)?, 0, given.last(3, number)?),
        b"window" => controller.set_row(given.field(2, row)?, 1, given.last(3, number)?),
        b"dot" => {
            let (slot, actor) = (given.field(2, size::<LAST_SLOT>)?, given.field(3, byte)?);
            controller.set_dot(slot, actor, given.last(4, number)?);
        }
        b"count" => controller.state.count = given.last(2, number)?,
        b"byte" => {
            let set = controller.set_byte(given.field(2, number)?, given.last(3, byte)?);
            set.map_err(|reason| about(2, reason))?;
        }
        _ => return Err(about(1, "unknown poke")),
    }
    Ok("poke".to_string())
}

fn key_line(given: &Fields) -> Result<String, Why> {
    let kind = given.field(1, key_type)?;
    let (name, label) = (given.field(2, text)?, given.field(3, text)?);
    let (actor, counter) = (given.field(4, byte)?, given.field(5, number)?);
    let mut out = vec![0; given.last(6, size::<OUT>)?];
    let (answer, written) = write_key(kind, &name, &label, actor, counter, &mut out);
    Ok(format!("key {answer} {}", hex_of(&out[..written as usize])))
}

fn read_key_line(bytes: &[u8]) -> String {
    let read = read_key(bytes);
    let letter = read.kind.map_or('-', |kind| char::from(kind.letter()));
    let (name, label) = (text_of(&read.name), text_of(&read.label));
    format!(
        "readkey {} {letter} {name} {label} {} {}",
        read.answer, read.actor, read.counter
    )
}

fn read_message_line(bytes: &[u8]) -> String {
    let read = read_message(bytes);
    let Some(message) = read.message else {
        return format!("readmessage {} - - - - -", read.answer);
    };
    let (kind, label, dot) = match &message.add {
        Some((label, dot)) => ("add", text_of(label), dots_of(&dot.bytes())),
        None => ("remove", text_of(b""), dots_of(b"")),
    };
    let context: Vec<u8> = message.context.iter().flat_map(|dot| dot.bytes()).collect();
    format!(
        "readmessage 0 {kind} {} {label} {dot} {}",
        text_of(&message.name),
        dots_of(&context)
    )
}
