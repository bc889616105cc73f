//! Hand-off images: a whole controller in bytes under a CRC, written and loaded.

use crate::answer::{
    ACTOR_TAKEN, BAD_CHECKSUM, BAD_DOT, BAD_NAME, BAD_SHAPE, DAMAGED, DONE, OUTPUT_SHORT,
    STORE_FULL,
};
use crate::block::{self, Block};
use crate::calls::Wrote;
use crate::check::Sound;
use crate::crc::crc32;
use crate::dot::actor_keeps_rule;
use crate::form::Form;
use crate::keys::name_keeps_rule;
use crate::message::{after_version, counted, put, put_head};
use limits::{CLOCK_SIZE, CRC_SIZE, DOT_SIZE, IMAGE_FIXED, ROW_SIZE, STATE_SIZE, STORE_MAX};

const IMAGE: u8 = b'i';

/// Writing an image: answers 1, 13.
pub fn write_image<F: Form>(block: &Block, store: &[u8], out: &mut [u8]) -> Wrote {
    Wrote::of(try_write_image::<F>(block, store, out))
}

fn try_write_image<F: Form>(block: &Block, store: &[u8], out: &mut [u8]) -> Result<usize, u8> {
    let sound = Sound::<F>::read(block, store, &[])?;
    let (name, keys) = (sound.prefix.name(), &store[..sound.used]);
    let dots = &block::tombstone_room(block)[..sound.count * DOT_SIZE];
    let length = IMAGE_FIXED + name.len() + dots.len() + keys.len();
    let image = out.get_mut(..length).ok_or(OUTPUT_SHORT)?;
    let (body, crc) = image.split_at_mut(length - CRC_SIZE);
    let rest = put_head(body, IMAGE, name);
    let rest = put(rest, &[sound.actor]);
    let rest = put(rest, block::clock_room(block));
    let rest = put(rest, &[sound.count as u8]);
    let rest = put(rest, dots);
    let rest = put(rest, &(sound.used as u32).to_be_bytes());
    put(rest, keys);
    put(crc, &crc32(body).to_be_bytes());
    Ok(length)
}

/// Loading an image: answers 1, 2, 3, 4, 14, 15, 5, 6, 12, and then leaves a state that is zero
/// throughout.
pub fn load_image<F: Form>(actor: u8, image: &[u8], block: &mut Block, store: &mut [u8]) -> u8 {
    match try_load_image::<F>(actor, image, store) {
        Ok(loaded) => {
            *block = loaded;
            DONE
        }
        Err(answer) => {
            *block = [0; STATE_SIZE];
            answer
        }
    }
}

fn try_load_image<F: Form>(actor: u8, bytes: &[u8], store: &mut [u8]) -> Result<Block, u8> {
    if store.len() > STORE_MAX {
        return Err(DAMAGED);
    }
    let image = Image::read(bytes)?;
    if !image.leaves_free(actor) {
        return Err(ACTOR_TAKEN);
    }
    if !name_keeps_rule(image.name) || !actor_keeps_rule(image.actor) {
        return Err(BAD_NAME);
    }
    let mut block = image.block().ok_or(BAD_DOT)?;
    // The keys are judged where they stand, as a store just as long as they are.
    Sound::<F>::read(&block, image.keys, &[]).map_err(|_| BAD_DOT)?;
    let place = store.get_mut(..image.keys.len()).ok_or(STORE_FULL)?;
    place.copy_from_slice(image.keys);
    block::set_actor(&mut block, actor);
    Ok(block)
}

/// The fields of an image.
struct Image<'a> {
    name: &'a [u8],
    /// The writer's.
    actor: u8,
    rows: &'a [u8; CLOCK_SIZE],
    dots: &'a [u8],
    keys: &'a [u8],
}

impl<'a> Image<'a> {
    /// Reads the fields, not yet judged by their rules: answers 2, 3, 4, 14.
    fn read(bytes: &'a [u8]) -> Result<Image<'a>, u8> {
        let (image, crc) = Image::cut(after_version(bytes)?).ok_or(BAD_SHAPE)?;
        let body = &bytes[..bytes.len() - CRC_SIZE];
        match crc == crc32(body).to_be_bytes() {
            true => Ok(image),
            false => Err(BAD_CHECKSUM),
        }
    }

    /// The fields as the lengths cut them, and the CRC.
    fn cut(bytes: &'a [u8]) -> Option<(Image<'a>, [u8; CRC_SIZE])> {
        let (name, rest) = counted(bytes.strip_prefix(&[IMAGE])?, 1)?;
        let (actor, rest) = rest.split_first()?;
        let (rows, rest) = rest.split_first_chunk()?;
        let (dots, rest) = counted(rest, DOT_SIZE)?;
        let (used, rest) = rest.split_first_chunk()?;
        let (keys, crc) = rest.split_at_checked(u32::from_be_bytes(*used) as usize)?;
        let image = Image {
            name,
            actor: *actor,
            rows,
            dots,
            keys,
        };
        Some((image, crc.try_into().ok()?))
    }

    /// Whether a box may take this actor: one that is not the writer's and whose row is empty.
    fn leaves_free(&self, actor: u8) -> bool {
        let row = || &self.rows.as_chunks::<ROW_SIZE>().0[usize::from(actor) - 1];
        actor_keeps_rule(actor) && actor != self.actor && *row() == [0; ROW_SIZE]
    }

    /// The block of the writer, damaged or not. None if it has no room for the dots. The name keeps
    /// its rule.
    fn block(&self) -> Option<Block> {
        let mut block = [0; STATE_SIZE];
        block::set_actor(&mut block, self.actor);
        block::set_name(&mut block, self.name);
        block::set_clock(&mut block, self.rows);
        let room = block::tombstone_room_mut(&mut block);
        room.get_mut(..self.dots.len())?.copy_from_slice(self.dots);
        block::set_count(&mut block, self.dots.len() / DOT_SIZE);
        block::set_used(&mut block, self.keys.len());
        Some(block)
    }
}
