//! "Swapping a dead box" (document 02, request 7): hand-off images, read from bytes and written to
//! them.

use crate::answer::{BAD_CHECKSUM, BAD_SHAPE};
use crate::held::{Held, State};
use crate::limits::{CLOCK_WORDS, COUNTER_SIZE, DOT_SIZE, ROW_WORDS, TOMBSTONE_SIZE};
use crate::message::{after_version, counted, cut, front};

const IMAGE: u8 = 0x69;
/// Bytes of the used length, and of the CRC.
const USED_SIZE: usize = 4;
const CRC_SIZE: usize = 4;

/// The fields of an image as its lengths cut them, not yet judged by their rules.
pub struct Image<'a> {
    pub name: &'a [u8],
    /// The writer's actor.
    pub actor: u8,
    /// Base and window of each actor in turn.
    pub rows: [u64; CLOCK_WORDS],
    pub tombstone: &'a [u8],
    pub keys: &'a [u8],
}

/// The fields of an image with a right CRC; answers 2, 3, 4, 14.
pub fn parse(bytes: &[u8]) -> Result<Image<'_>, u8> {
    let (image, crc) = fields(after_version(bytes)?).ok_or(BAD_SHAPE)?;
    let (before, _) = bytes.split_at(bytes.len() - CRC_SIZE);
    if crc != crc32(before).to_be_bytes() {
        return Err(BAD_CHECKSUM);
    }
    Ok(image)
}

/// The structure alone: none if the kind is another, a field runs past the end or bytes are left.
fn fields(bytes: &[u8]) -> Option<(Image<'_>, &[u8])> {
    let mut rest = bytes.strip_prefix(&[IMAGE])?;
    let name = counted(&mut rest, 1)?;
    let actor = cut(&mut rest, 1)?[0];
    let mut rows = [0; CLOCK_WORDS];
    for word in &mut rows {
        *word = number(cut(&mut rest, COUNTER_SIZE)?);
    }
    let tombstone = counted(&mut rest, DOT_SIZE)?;
    let used = number(cut(&mut rest, USED_SIZE)?);
    let keys = cut(&mut rest, usize::try_from(used).ok()?)?;
    let crc = cut(&mut rest, CRC_SIZE)?;
    let image = Image {
        name,
        actor,
        rows,
        tombstone,
        keys,
    };
    rest.is_empty().then_some((image, crc))
}

/// The number in these bytes, highest first.
fn number(bytes: &[u8]) -> u64 {
    bytes
        .iter()
        .fold(0, |sum, byte| sum << 8 | u64::from(*byte))
}

impl Image<'_> {
    /// Base and window of an actor's row.
    pub fn row(&self, actor: u8) -> &[u64] {
        let at = ROW_WORDS * (usize::from(actor) - 1);
        &self.rows[at..at + ROW_WORDS]
    }

    /// The writer's state, damaged or not; none if it has no room for the tombstone. The name keeps
    /// its rule.
    pub fn state(&self) -> Option<State> {
        if self.tombstone.len() > TOMBSTONE_SIZE {
            return None;
        }
        let mut state = State::zero();
        state.actor = self.actor;
        state.name[..self.name.len()].copy_from_slice(self.name);
        state.name_len = self.name.len() as u64;
        state.clock = self.rows;
        state.tombstone[..self.tombstone.len()].copy_from_slice(self.tombstone);
        state.count = (self.tombstone.len() / DOT_SIZE) as u64;
        state.used = self.keys.len() as u64;
        Some(state)
    }
}

/// The bytes of the image that a controller of these values writes, with the clock's rows given.
pub fn image_bytes(held: &Held, rows: &[u64; CLOCK_WORDS]) -> Vec<u8> {
    let mut bytes = front();
    bytes.extend([IMAGE, held.name.len() as u8]);
    bytes.extend(&held.name);
    bytes.push(held.actor.byte());
    bytes.extend(rows.iter().flat_map(|word| word.to_be_bytes()));
    bytes.push(held.tombstone.len() as u8);
    bytes.extend(held.tombstone.iter().flat_map(|dot| dot.bytes()));
    bytes.extend((held.used() as u32).to_be_bytes());
    bytes.extend(held.store_bytes());
    bytes.extend(crc32(&bytes).to_be_bytes());
    bytes
}

/// The CRC-32 of IEEE 802.3, bit by bit: reflected, polynomial EDB88320, start and final inversion.
pub fn crc32(bytes: &[u8]) -> u32 {
    let mut crc = !0;
    for byte in bytes {
        crc ^= u32::from(*byte);
        for _ in 0..8 {
            let lowest = crc & 1;
            crc >>= 1;
            if lowest == 1 {
                crc ^= 0xEDB8_8320;
            }
        }
    }
    !crc
}
