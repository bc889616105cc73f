//! Pokes: a field of the state or a byte of the store, set whatever that breaks.

use super::fields::{text, Byte, Field, Fields, Num, Size, Text, Written};
use super::{Rack, Reason, Why};
use limits::{ACTOR_MAX, NAME_MAX, TOMBSTONE_DOTS_MAX};
use ptl::{Actor, Dot};

/// The field after a poke's kind says where.
const OUTSIDE: Why = Why {
    field: Some(2),
    reason: "outside what can be set",
};

#[derive(Clone, PartialEq, Eq, Debug)]
pub enum Poke {
    Used(u64),
    Actor(u8),
    Name(Vec<u8>),
    NameLength(u64),
    Base(u8, u64),
    Window(u8, u64),
    Dot(usize, u8, u64),
    Count(u64),
    Byte(usize, u8),
}

impl Field for Poke {
    type Value = Poke;

    fn read(fields: &mut Fields) -> Result<Poke, Reason> {
        Ok(match fields.next()? {
            b"used" => Poke::Used(Num::read(fields)?),
            b"actor" => Poke::Actor(Byte::read(fields)?),
            b"name" => Poke::Name(name(fields)?),
            b"namelen" => Poke::NameLength(Num::read(fields)?),
            b"base" => Poke::Base(row(fields)?, Num::read(fields)?),
            b"window" => Poke::Window(row(fields)?, Num::read(fields)?),
            b"dot" => Poke::Dot(
                Size::<{ TOMBSTONE_DOTS_MAX - 1 }>::read(fields)?,
                Byte::read(fields)?,
                Num::read(fields)?,
            ),
            b"count" => Poke::Count(Num::read(fields)?),
            b"byte" => Poke::Byte(Size::<{ usize::MAX }>::read(fields)?, Byte::read(fields)?),
            _ => return Err("unknown poke"),
        })
    }

    fn write(poke: &Poke) -> Written {
        Ok(match poke {
            Poke::Used(used) => format!("used {used}"),
            Poke::Actor(actor) => format!("actor {actor}"),
            Poke::Name(name) => format!("name {}", text(name)),
            Poke::NameLength(length) => format!("namelen {length}"),
            Poke::Base(actor, base) => format!("base {actor} {base}"),
            Poke::Window(actor, window) => format!("window {actor} {window}"),
            Poke::Dot(slot, actor, counter) => format!("dot {slot} {actor} {counter}"),
            Poke::Count(count) => format!("count {count}"),
            Poke::Byte(offset, byte) => format!("byte {offset} {byte}"),
        })
    }
}

fn name(fields: &mut Fields) -> Result<Vec<u8>, Reason> {
    let name = Text::read(fields)?;
    if name.len() > NAME_MAX {
        return Err("name over 16 bytes");
    }
    Ok(name)
}

/// An actor that has a row.
fn row(fields: &mut Fields) -> Result<u8, Reason> {
    match Byte::read(fields)? {
        actor @ 1..=ACTOR_MAX => Ok(actor),
        _ => Err("rows are 1 to 16"),
    }
}

impl Poke {
    pub fn apply(&self, rack: &mut Rack) -> Result<(), Why> {
        let state = &mut rack.state;
        let mut can = true;
        match self {
            Poke::Used(used) => state.set_used(*used),
            Poke::Actor(actor) => state.set_actor(Actor(*actor)),
            Poke::Name(name) => can = state.set_name(name),
            Poke::NameLength(length) => state.set_name_length(*length),
            Poke::Base(actor, base) => can = state.set_base(Actor(*actor), *base),
            Poke::Window(actor, window) => can = state.set_window(Actor(*actor), *window),
            Poke::Dot(slot, actor, counter) => {
                can = state.set_slot(*slot, Dot::from((*actor, *counter)));
            }
            Poke::Count(count) => state.set_count(*count),
            Poke::Byte(offset, byte) => match rack.store.get_mut(*offset) {
                Some(place) => *place = *byte,
                None => can = false,
            },
        }
        can.then_some(()).ok_or(OUTSIDE)
    }
}
