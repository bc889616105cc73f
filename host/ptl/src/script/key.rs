//! A key to write, as the fields of a line say it.

use super::fields::{text, Byte, Field, Fields, KeyType, Num, Text, Written};
use super::Reason;

#[derive(Clone, PartialEq, Eq, Debug)]
pub struct KeyToWrite {
    pub kind: u8,
    pub name: Vec<u8>,
    pub label: Vec<u8>,
    pub actor: u8,
    pub counter: u64,
}

/// The call that writes a key: kind, name, label, actor, counter, output.
pub type WriteKey<T> = fn(u8, &[u8], &[u8], u8, u64, &mut [u8]) -> T;

impl KeyToWrite {
    /// Has it written by a call that takes its parts.
    pub fn written_by<T>(&self, call: WriteKey<T>, out: &mut [u8]) -> T {
        let (name, label) = (&self.name, &self.label);
        call(self.kind, name, label, self.actor, self.counter, out)
    }
}

impl Field for KeyToWrite {
    type Value = KeyToWrite;

    fn read(fields: &mut Fields) -> Result<KeyToWrite, Reason> {
        Ok(KeyToWrite {
            kind: KeyType::read(fields)?,
            name: Text::read(fields)?,
            label: Text::read(fields)?,
            actor: Byte::read(fields)?,
            counter: Num::read(fields)?,
        })
    }

    fn write(key: &KeyToWrite) -> Written {
        let (name, label) = (text(&key.name), text(&key.label));
        let rest = format!(" {name} {label} {} {}", key.actor, key.counter);
        let kind = KeyType::write(&key.kind);
        kind.map(|kind| kind + &rest).map_err(|kind| kind + &rest)
    }
}
