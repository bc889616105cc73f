//! Every command of the console, once: its word, its fields and the answers that it can give. An
//! output is lent to a command that has a field `Out`.

use super::fields::{At, Byte, Dots, Field, Fields, Hex, Out, Size, Text, Written};
use super::{KeyToWrite, Poke, Reason, BUFFER_MAX};

/// What a line says by a word and fields: one row of a table.
pub trait Worded: Sized {
    /// The words in the table's order, each with the answers that can be given to it.
    const TABLE: &'static [(&'static str, &'static [u8])];

    /// The first word of the line, and of its output.
    fn word(&self) -> &'static str;

    /// The fields after the word.
    fn fields(&self) -> Vec<Written>;

    /// The length of the output that must be lent.
    fn out(&self) -> usize;

    /// Reads the fields after this word; none if the table lacks the word.
    fn read(word: &[u8], fields: &mut Fields) -> Result<Option<Self>, Reason>;

    /// Whether this answer can be given to it.
    fn can_give(&self, answer: u8) -> bool {
        let mut rows = Self::TABLE.iter();
        rows.any(|(word, answers)| *word == self.word() && answers.contains(&answer))
    }
}

/// An enum of the rows of a table: variant, word, fields of their kinds, answers.
macro_rules! table {
    ($(#[$about:meta])* $name:ident
     $($row:ident $word:literal $({ $($field:ident: $kind:ty),* })? => $answers:expr;)*) => {
        $(#[$about])*
        #[derive(Clone, PartialEq, Eq, Debug)]
        pub enum $name {
            $($row $({ $($field: <$kind as Field>::Value),* })?,)*
        }

        impl Worded for $name {
            const TABLE: &'static [(&'static str, &'static [u8])] = &[$(($word, &$answers)),*];

            fn word(&self) -> &'static str {
                match self {
                    $($name::$row { .. } => $word,)*
                }
            }

            fn fields(&self) -> Vec<Written> {
                match self {
                    $($name::$row $({ $($field),* })? => vec![$($(<$kind>::write($field)),*)?],)*
                }
            }

            fn out(&self) -> usize {
                match self {
                    $($name::$row $({ $($field),* })? => 0 $($(+ <$kind>::lent($field))*)?,)*
                }
            }

            fn read(word: &[u8], fields: &mut Fields) -> Result<Option<$name>, Reason> {
                $(if word == $word.as_bytes() {
                    return Ok(Some($name::$row $({ $($field: <$kind>::read(fields)?),* })?));
                })*
                Ok(None)
            }
        }
    };
}

table! {
    /// "Commands of the base" and of the requests: the calls of one controller with their
    /// arguments. `out` is the length of the lent output; a context is nine bytes a dot.
    Command
    Setup "setup" { actor: Byte, name: Text } => [0, 5];
    Add "add" { label: Text, context: Dots, out: Out } => [0, 1, 5, 6, 8, 9, 10, 11, 12, 13];
    Remove "remove" { context: Dots, out: Out } => [0, 1, 6, 8, 10, 11, 13];
    Take "take" { message: Hex } => [0, 1, 2, 3, 4, 5, 6, 7, 8, 10, 11, 12];
    List "list" { out: Out } => [0, 1, 13];
    Page "page" { start: Text, out: Out } => [0, 1, 5, 13];
    Lookup "lookup" { label: Text } => [0, 1, 5];
    Compact "compact" => [0, 1];
    Image "image" { out: Out } => [0, 1, 13];
    Load "load" { actor: Byte, image: Hex } => [0, 1, 2, 3, 4, 5, 6, 12, 14, 15];
    Key "key" { key: KeyToWrite, out: Out } => [0, 4, 5, 6, 13];
    ReadKey "readkey" { bytes: Hex } => [0, 4];
    ReadMessage "readmessage" { bytes: Hex } => [0, 2, 3, 4, 5, 6];
}

table! {
    /// Calls that read two controllers, whichever the line speaks to.
    Both
    Merge "merge" { first: At, second: At, out: Out } => [0, 1, 7, 13];
}

table! {
    /// "Commands that look and that damage": no engine is asked.
    Tool
    State "state" => [];
    Store "store" => [];
    Buffer "buffer" { length: Size<BUFFER_MAX>, fill: Byte } => [];
    Poke "poke" { poke: Poke } => [];
}
