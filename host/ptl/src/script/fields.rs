//! The fields of a line by their kinds: each is read from its one form or refused, and written in
//! that form.

use super::{Reason, Why, OUT_MAX, RACKS};
use limits::DOT_SIZE;
use ptl::{dots_of, Dot};
use std::fmt::Write;

/// The words of a line, one after the other.
pub type Words<'a> = std::slice::Split<'a, u8, fn(&u8) -> bool>;

/// The words of a line. Refused is an empty one: two spaces, or one at either end.
pub fn words(line: &[u8]) -> Result<Words<'_>, Reason> {
    if line.contains(&b'\r') {
        return Err("carriage return");
    }
    let is_space: fn(&u8) -> bool = |byte| *byte == b' ';
    let words = line.split(is_space);
    match words.clone().any(<[u8]>::is_empty) {
        true => Err("space at an end or two spaces"),
        false => Ok(words),
    }
}

/// The fields of a command: the words after its own, read from left to right.
pub struct Fields<'a> {
    rest: Words<'a>,
    /// The field that was asked for last, counted from 1.
    at: usize,
}

impl<'a> Fields<'a> {
    pub fn new(rest: Words<'a>) -> Fields<'a> {
        Fields { rest, at: 0 }
    }

    pub fn next(&mut self) -> Result<&'a [u8], Reason> {
        self.at += 1;
        self.rest.next().ok_or("missing")
    }

    /// Refuses anything left over.
    pub fn end(&mut self) -> Result<(), Reason> {
        match self.next() {
            Ok(_) => Err("one too many"),
            Err(_) => Ok(()),
        }
    }

    /// A reason that is about the field asked for last.
    pub fn why(&self, reason: Reason) -> Why {
        Why {
            field: Some(self.at),
            reason,
        }
    }
}

/// A field in its form; or, for a value that the console has no form for, in hexadecimal.
pub type Written = Result<String, String>;

/// A kind of field.
pub trait Field {
    type Value;

    fn read(fields: &mut Fields) -> Result<Self::Value, Reason>;

    fn write(value: &Self::Value) -> Written;

    /// How many bytes of output must be lent for it.
    fn lent(_value: &Self::Value) -> usize {
        0
    }
}

/// NUM: decimal without leading zeros.
pub struct Num;

impl Field for Num {
    type Value = u64;

    fn read(fields: &mut Fields) -> Result<u64, Reason> {
        number(fields.next()?)
    }

    fn write(number: &u64) -> Written {
        Ok(number.to_string())
    }
}

/// A NUM from 0 to 255.
pub struct Byte;

impl Field for Byte {
    type Value = u8;

    fn read(fields: &mut Fields) -> Result<u8, Reason> {
        byte(fields.next()?)
    }

    fn write(byte: &u8) -> Written {
        Ok(byte.to_string())
    }
}

/// A NUM of at most this size.
pub struct Size<const MOST: usize>;

impl<const MOST: usize> Field for Size<MOST> {
    type Value = usize;

    fn read(fields: &mut Fields) -> Result<usize, Reason> {
        let size = usize::try_from(Num::read(fields)?).ok();
        size.filter(|size| *size <= MOST).ok_or("number too large")
    }

    fn write(size: &usize) -> Written {
        Ok(size.to_string())
    }
}

/// OUT: the length of the lent output.
pub struct Out;

impl Field for Out {
    type Value = usize;

    fn read(fields: &mut Fields) -> Result<usize, Reason> {
        Size::<OUT_MAX>::read(fields)
    }

    fn write(size: &usize) -> Written {
        Ok(size.to_string())
    }

    fn lent(size: &usize) -> usize {
        *size
    }
}

/// A controller: `@K`.
pub struct At;

impl Field for At {
    type Value = usize;

    fn read(fields: &mut Fields) -> Result<usize, Reason> {
        let digits = fields.next()?.strip_prefix(b"@");
        rack(digits.ok_or(NO_RACK)?)
    }

    fn write(rack: &usize) -> Written {
        Ok(format!("@{rack}"))
    }
}

/// TEXT: printing bytes for themselves, `%XX` for any byte, `-` for none.
pub struct Text;

impl Field for Text {
    type Value = Vec<u8>;

    fn read(fields: &mut Fields) -> Result<Vec<u8>, Reason> {
        bytes(fields, bytes_of_text)
    }

    fn write(bytes: &Vec<u8>) -> Written {
        Ok(text(bytes))
    }
}

/// HEX: pairs of lower-case digits, `-` for no bytes.
pub struct Hex;

impl Field for Hex {
    type Value = Vec<u8>;

    fn read(fields: &mut Fields) -> Result<Vec<u8>, Reason> {
        bytes(fields, bytes_of_hex)
    }

    fn write(bytes: &Vec<u8>) -> Written {
        Ok(hex(bytes))
    }
}

/// DOTS: `actor:counter` joined by commas, `-` for none. In memory nine bytes a dot; other bytes
/// have no form.
pub struct Dots;

impl Field for Dots {
    type Value = Vec<u8>;

    fn read(fields: &mut Fields) -> Result<Vec<u8>, Reason> {
        bytes(fields, bytes_of_dots)
    }

    fn write(bytes: &Vec<u8>) -> Written {
        match bytes.len().is_multiple_of(DOT_SIZE) {
            true => Ok(dots(&dots_of(bytes))),
            false => Err(hex(bytes)),
        }
    }
}

/// TYPE: `c`, `d`, `e` or `z`. In memory any byte; others have no form.
pub struct KeyType;

impl Field for KeyType {
    type Value = u8;

    fn read(fields: &mut Fields) -> Result<u8, Reason> {
        match fields.next()? {
            [kind @ (b'c' | b'd' | b'e' | b'z')] => Ok(*kind),
            _ => Err("key types are c, d, e and z"),
        }
    }

    fn write(kind: &u8) -> Written {
        match kind {
            b'c' | b'd' | b'e' | b'z' => Ok(char::from(*kind).to_string()),
            _ => Err(hex(&[*kind])),
        }
    }
}

fn number(field: &[u8]) -> Result<u64, Reason> {
    let digits = field.iter().all(u8::is_ascii_digit);
    let leading_zero = field.len() > 1 && field[0] == b'0';
    if field.is_empty() || !digits || leading_zero {
        return Err("not a number");
    }
    let text = std::str::from_utf8(field).map_err(|_| "not a number")?;
    text.parse().map_err(|_| "number too large")
}

const NO_RACK: Reason = "controllers are 0 to 15";

/// The controller of this number.
pub fn rack(digits: &[u8]) -> Result<usize, Reason> {
    match number(digits)? {
        number if number < RACKS as u64 => Ok(number as usize),
        _ => Err(NO_RACK),
    }
}

fn byte(field: &[u8]) -> Result<u8, Reason> {
    u8::try_from(number(field)?).map_err(|_| "number over 255")
}

/// The bytes that a field stands for; `-` stands for none.
fn bytes(
    fields: &mut Fields,
    bytes_of: fn(&[u8]) -> Result<Vec<u8>, Reason>,
) -> Result<Vec<u8>, Reason> {
    match fields.next()? {
        b"-" => Ok(Vec::new()),
        field => bytes_of(field),
    }
}

fn bytes_of_hex(field: &[u8]) -> Result<Vec<u8>, Reason> {
    let bytes = field.chunks(2).map(|pair| pair_of(pair, b'a'));
    bytes.collect::<Option<_>>().ok_or("not hexadecimal")
}

fn bytes_of_dots(field: &[u8]) -> Result<Vec<u8>, Reason> {
    let dots = field.split(|byte| *byte == b',').map(dot);
    let dots: Vec<Dot> = dots.collect::<Result<_, _>>()?;
    Ok(ptl::dots_to_bytes(&dots))
}

fn dot(field: &[u8]) -> Result<Dot, Reason> {
    let mut parts = field.splitn(2, |byte| *byte == b':');
    let actor = byte(parts.next().unwrap_or_default())?;
    let counter = number(parts.next().ok_or("dot without counter")?)?;
    Ok(Dot::from((actor, counter)))
}

fn bytes_of_text(field: &[u8]) -> Result<Vec<u8>, Reason> {
    let mut bytes = Vec::with_capacity(field.len());
    let mut rest = field;
    while let Some((first, after)) = rest.split_first() {
        rest = after;
        match first {
            b'%' => {
                let (pair, after) = rest.split_at_checked(2).ok_or("cut % in text")?;
                bytes.push(pair_of(pair, b'A').ok_or("bad % in text")?);
                rest = after;
            }
            b'!'..=b'~' => bytes.push(*first),
            _ => return Err("byte that text must write as %"),
        }
    }
    Ok(bytes)
}

/// The byte of two hexadecimal digits, whose letters begin at this `a`.
fn pair_of(pair: &[u8], a: u8) -> Option<u8> {
    match pair {
        [high, low] => Some(16 * digit(*high, a)? + digit(*low, a)?),
        _ => None,
    }
}

fn digit(byte: u8, a: u8) -> Option<u8> {
    match byte {
        b'0'..=b'9' => Some(byte - b'0'),
        _ if (a..a + 6).contains(&byte) => Some(byte - a + 10),
        _ => None,
    }
}

/// TEXT of bytes.
pub fn text(bytes: &[u8]) -> String {
    match bytes {
        [] => "-".to_string(),
        [b'-'] => "%2D".to_string(),
        _ => bytes.iter().map(|byte| text_byte(*byte)).collect(),
    }
}

fn text_byte(byte: u8) -> String {
    match byte {
        b'%' => "%25".to_string(),
        b'!'..=b'~' => char::from(byte).to_string(),
        _ => format!("%{byte:02X}"),
    }
}

/// HEX of bytes.
pub fn hex(bytes: &[u8]) -> String {
    if bytes.is_empty() {
        return "-".to_string();
    }
    let mut hex = String::with_capacity(2 * bytes.len());
    for byte in bytes {
        let _ = write!(hex, "{byte:02x}");
    }
    hex
}

/// DOTS of dots.
pub fn dots(dots: &[Dot]) -> String {
    let pair = |dot: &Dot| format!("{}:{}", dot.actor.0, dot.counter.0);
    joined(dots.iter().map(pair))
}

/// Parts joined by commas; `-` if there are none.
pub fn joined(parts: impl Iterator<Item = String>) -> String {
    let parts: Vec<String> = parts.collect();
    match parts.is_empty() {
        true => "-".to_string(),
        false => parts.join(","),
    }
}
