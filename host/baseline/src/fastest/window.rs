//! What is looked at of a key at once, to the end of a store.

use crate::keys::PREFIX_MAX;
use crate::words::WORD;
use limits::{KEY_END, LABEL_MAX};

/// From a label on: the rest of its key, and the prefix of the next.
pub type Window = [u8; WINDOW];
pub const WINDOW: usize = LABEL_MAX + KEY_END + PREFIX_ROOM;
/// Room for the longest prefix, in whole words.
pub const PREFIX_ROOM: usize = PREFIX_MAX.next_multiple_of(WORD);

/// The last bytes of a store, with a prefix and a whole window after them.
pub struct End {
    bytes: [u8; WINDOW + PREFIX_MAX + WINDOW],
    /// Where the first of them stands in the store, counted from its first label.
    at: usize,
    length: usize,
}

impl End {
    pub fn new(from_label: &[u8], prefix: &[u8]) -> End {
        let at = from_label.len().saturating_sub(WINDOW);
        let last = &from_label[at..];
        let mut bytes = [0; WINDOW + PREFIX_MAX + WINDOW];
        bytes[..last.len()].copy_from_slice(last);
        bytes[last.len()..last.len() + prefix.len()].copy_from_slice(prefix);
        let length = last.len() + prefix.len() + WINDOW - 1;
        End { bytes, at, length }
    }

    /// The keys from this place on: there is a whole window from each label on, and none after the
    /// prefix that follows the last key.
    pub fn keys(&self, from: usize) -> &[u8] {
        &self.bytes[from - self.at..self.length]
    }
}
