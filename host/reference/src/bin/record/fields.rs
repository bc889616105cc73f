//! The fields of a console line, NUM, TEXT, HEX and DOTS: read from their one form, and written.
//!
//! The page of the console leaves the words of a reason open; these are the words of `ptl console`.

use reference::KeyKind;

/// What is wrong with a field or with a line.
pub type Reason = &'static str;

/// Why a line breaks the form: the reason, after the field that it is about if it is not the line.
pub type Why = String;

/// A reason about field n.
pub fn about(n: usize, reason: Reason) -> Why {
    format!("field {n}: {reason}")
}

/// What stands after a command's word. Fields are counted from 1.
pub struct Fields<'a>(pub &'a [&'a [u8]]);

impl Fields<'_> {
    /// Field n as it stands.
    pub fn word(&self, n: usize) -> Result<&[u8], Why> {
        let word = self.0.get(n - 1).copied();
        word.ok_or_else(|| about(n, "missing"))
    }

    /// Field n in its form.
    pub fn field<T>(&self, n: usize, form: fn(&[u8]) -> Result<T, Reason>) -> Result<T, Why> {
        form(self.word(n)?).map_err(|reason| about(n, reason))
    }

    /// Field n in its form, with none after it.
    pub fn last<T>(&self, n: usize, form: fn(&[u8]) -> Result<T, Reason>) -> Result<T, Why> {
        let read = self.field(n, form)?;
        self.end(n)?;
        Ok(read)
    }

    /// No more than n fields.
    pub fn end(&self, n: usize) -> Result<(), Why> {
        if self.0.len() > n {
            return Err(about(n + 1, "one too many"));
        }
        Ok(())
    }
}

/// NUM: decimal without leading zeros.
pub fn number(field: &[u8]) -> Result<u64, Reason> {
    if field.is_empty() || !field.iter().all(u8::is_ascii_digit) {
        return Err("not a number");
    }
    if field[0] == b'0' && field.len() > 1 {
        return Err("not a number");
    }
    let mut digits = field.iter().map(|digit| u64::from(digit - b'0'));
    let more = |sum: u64, digit| sum.checked_mul(10)?.checked_add(digit);
    digits.try_fold(0, more).ok_or("number too large")
}

/// A NUM of at most so much.
pub fn size<const MOST: usize>(field: &[u8]) -> Result<usize, Reason> {
    let number = number(field)?;
    if number > MOST as u64 {
        return Err("number too large");
    }
    Ok(number as usize)
}

/// The number of controllers.
pub const CONTROLLERS: usize = 16;
const NO_CONTROLLER: Reason = "controllers are 0 to 15";

/// The number of a controller.
pub fn controller(digits: &[u8]) -> Result<usize, Reason> {
    let number = number(digits)?;
    if number >= CONTROLLERS as u64 {
        return Err(NO_CONTROLLER);
    }
    Ok(number as usize)
}

/// A controller as a field: `@K`.
pub fn at(field: &[u8]) -> Result<usize, Reason> {
    controller(field.strip_prefix(b"@").ok_or(NO_CONTROLLER)?)
}

/// A NUM from 0 to 255.
pub fn byte(field: &[u8]) -> Result<u8, Reason> {
    u8::try_from(number(field)?).map_err(|_| "number over 255")
}

/// An actor that has a row.
pub fn row(field: &[u8]) -> Result<u8, Reason> {
    match byte(field)? {
        actor @ 1..=16 => Ok(actor),
        _ => Err("rows are 1 to 16"),
    }
}

/// TEXT: the bytes 21 to 7E for themselves, but for `%`; `%XX` for any byte; `-` for no bytes.
pub fn text(field: &[u8]) -> Result<Vec<u8>, Reason> {
    if field == b"-" {
        return Ok(Vec::new());
    }
    let mut bytes = Vec::new();
    let mut rest = field;
    while !rest.is_empty() {
        let (byte, after) = text_byte(rest)?;
        bytes.push(byte);
        rest = after;
    }
    Ok(bytes)
}

/// A TEXT that a state has room for as its set name.
pub fn name(field: &[u8]) -> Result<Vec<u8>, Reason> {
    let name = text(field)?;
    if name.len() > 16 {
        return Err("name over 16 bytes");
    }
    Ok(name)
}

/// The first byte of a TEXT, and what stands after it.
fn text_byte(field: &[u8]) -> Result<(u8, &[u8]), Reason> {
    match field {
        [b'%', high, low, after @ ..] => {
            let byte = pair(*high, *low, b"0123456789ABCDEF");
            Ok((byte.ok_or("bad % in text")?, after))
        }
        [b'%', ..] => Err("cut % in text"),
        [byte @ 0x21..=0x7E, after @ ..] => Ok((*byte, after)),
        _ => Err("byte that text must write as %"),
    }
}

/// TYPE: the letter of a key's type.
pub fn key_type(field: &[u8]) -> Result<KeyKind, Reason> {
    let kind = match field {
        [letter] => KeyKind::of_letter(*letter),
        _ => None,
    };
    kind.ok_or("key types are c, d, e and z")
}

/// HEX: pairs of lower-case digits; `-` for no bytes.
pub fn hex(field: &[u8]) -> Result<Vec<u8>, Reason> {
    if field == b"-" {
        return Ok(Vec::new());
    }
    if !field.len().is_multiple_of(2) {
        return Err("not hexadecimal");
    }
    let pairs = field.chunks(2);
    let bytes = pairs.map(|two| pair(two[0], two[1], b"0123456789abcdef"));
    bytes.collect::<Option<_>>().ok_or("not hexadecimal")
}

/// The byte of two hexadecimal digits.
fn pair(high: u8, low: u8, digits: &[u8; 16]) -> Option<u8> {
    let value = |wanted: u8| digits.iter().position(|digit| *digit == wanted);
    u8::try_from(16 * value(high)? + value(low)?).ok()
}

/// DOTS: `actor:counter` joined by commas; `-` for none. Gives nine bytes a dot, rules unchecked.
pub fn dots(field: &[u8]) -> Result<Vec<u8>, Reason> {
    if field == b"-" {
        return Ok(Vec::new());
    }
    let dots = field.split(|byte| *byte == b',').map(dot);
    Ok(dots.collect::<Result<Vec<_>, _>>()?.concat())
}

fn dot(field: &[u8]) -> Result<Vec<u8>, Reason> {
    let colon = field.iter().position(|byte| *byte == b':');
    let actor = byte(&field[..colon.unwrap_or(field.len())])?;
    let counter = number(&field[colon.ok_or("dot without counter")? + 1..])?;
    Ok([&[actor][..], &counter.to_be_bytes()].concat())
}

/// Bytes as TEXT.
pub fn text_of(bytes: &[u8]) -> String {
    if bytes == b"-" {
        return "%2D".to_string();
    }
    let shown = |byte: &u8| match byte {
        b'%' => "%25".to_string(),
        0x21..=0x7E => char::from(*byte).to_string(),
        _ => format!("%{byte:02X}"),
    };
    or_minus(bytes.iter().map(shown).collect())
}

/// Bytes as HEX.
pub fn hex_of(bytes: &[u8]) -> String {
    or_minus(bytes.iter().map(|byte| format!("{byte:02x}")).collect())
}

/// Nine bytes a dot as DOTS.
pub fn dots_of(bytes: &[u8]) -> String {
    let shown = |dot: &[u8]| {
        let counter = dot[1..].iter().fold(0, |sum, b| sum << 8 | u64::from(*b));
        format!("{}:{counter}", dot[0])
    };
    joined(bytes.chunks(9).map(shown).collect())
}

/// Parts joined by commas; `-` if there are none.
pub fn joined(parts: Vec<String>) -> String {
    or_minus(parts.join(","))
}

fn or_minus(text: String) -> String {
    if text.is_empty() {
        return "-".to_string();
    }
    text
}
