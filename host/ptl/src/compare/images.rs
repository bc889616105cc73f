//! Hand-off images: of a controller as its fields stand, altered in every way, and loads of them as
//! actors of every kind.

use super::damage::Damage;
use super::messages::garble;
use super::pools;
use super::random::Random;
use super::starts::label_key;
use crate::script::{Rack, Tool};
use limits::{
    label_key_size, ACTOR_MAX, CRC_SIZE, DOT_SIZE, IMAGE_FIXED, LABEL_MAX, MESSAGE_HEAD,
    STATE_CLOCK_AT, STATE_TOMBSTONE_AT, STORE_MAX, TOMBSTONE_DOTS_MAX,
};
use ptl::{dots_to_bytes, Actor, Dot, State};

/// The length of the image that a sound controller writes.
pub fn length(rack: &Rack) -> usize {
    let dots = DOT_SIZE * rack.state.tombstone().len();
    IMAGE_FIXED + rack.state.name().len() + dots + rack.used()
}

/// The fields of an image; nothing is checked.
struct Fields {
    name: Vec<u8>,
    actor: u8,
    rows: Vec<u8>,
    dots: Vec<Dot>,
    keys: Vec<u8>,
}

impl Fields {
    /// Those of a controller, as they stand.
    fn of(rack: &Rack) -> Fields {
        let state = &rack.state;
        Fields {
            name: state.name().to_vec(),
            actor: state.actor().0,
            rows: state.block()[STATE_CLOCK_AT..STATE_TOMBSTONE_AT].to_vec(),
            dots: state.tombstone(),
            keys: rack.store[..rack.used()].to_vec(),
        }
    }

    /// The image under a right CRC.
    fn bytes(&self) -> Vec<u8> {
        let mut bytes = b"PTL\x00\x01i".to_vec();
        bytes.push(self.name.len() as u8);
        bytes.extend(&self.name);
        bytes.push(self.actor);
        bytes.extend(&self.rows);
        bytes.push(self.dots.len() as u8);
        bytes.extend(dots_to_bytes(&self.dots));
        bytes.extend((self.keys.len() as u32).to_be_bytes());
        bytes.extend(&self.keys);
        put_crc(&mut bytes);
        bytes
    }
}

/// Puts the CRC after these bytes.
fn put_crc(bytes: &mut Vec<u8>) {
    let crc = reference::crc32(bytes);
    bytes.extend(crc.to_be_bytes());
}

/// The image as this actor writes it again at once: another actor, and another CRC.
pub fn written_again(image: &[u8], actor: u8) -> Vec<u8> {
    let mut again = image[..image.len().saturating_sub(CRC_SIZE)].to_vec();
    let name = again.get(MESSAGE_HEAD - 1).copied().unwrap_or_default();
    if let Some(of_writer) = again.get_mut(MESSAGE_HEAD + usize::from(name)) {
        *of_writer = actor;
    }
    put_crc(&mut again);
    again
}

/// An image of a controller, most likely altered: on the way, or under a right CRC.
pub fn made(random: &mut Random, rack: &Rack) -> Vec<u8> {
    let mut fields = Fields::of(rack);
    match random.below(100) {
        0..=29 => (),
        30..=69 => return on_the_way(random, fields.bytes()),
        70..=84 => fields = Fields::of(&damaged(random, rack)),
        85..=89 => fields.name = pools::any_name(random),
        90..=93 => fields.actor = pools::any_actor(random),
        94..=98 => many_dots(random, rack, &mut fields),
        _ => too_long(random, rack, &mut fields),
    }
    fields.bytes()
}

/// Garbled, now and then by who makes the CRC right again; or a bit turned over.
fn on_the_way(random: &mut Random, mut image: Vec<u8>) -> Vec<u8> {
    match random.below(3) {
        0 => garble(random, &mut image),
        1 => {
            image.truncate(image.len() - CRC_SIZE);
            garble(random, &mut image);
            put_crc(&mut image);
        }
        _ => {
            let at = random.below(image.len());
            image[at] ^= 1 << random.below(8);
        }
    }
    image
}

/// The controller with some damage.
fn damaged(random: &mut Random, rack: &Rack) -> Rack {
    let mut rack = rack.clone();
    for act in Damage::of(random, &rack).acts {
        act.change(&mut rack);
    }
    rack
}

/// About as many dots of one actor as a tombstone has room for, all seen if its base is high enough.
fn many_dots(random: &mut Random, rack: &Rack, fields: &mut Fields) {
    let number = random.pick(&[
        TOMBSTONE_DOTS_MAX - 1,
        TOMBSTONE_DOTS_MAX,
        TOMBSTONE_DOTS_MAX + 1,
        255,
    ]);
    let base = |actor: &u8| rack.state.base(Actor(*actor));
    let actor = (1..=ACTOR_MAX).max_by_key(base).unwrap_or(1);
    let counters = 1..=number as u64;
    fields.dots = counters
        .map(|counter| Dot::from((actor, counter)))
        .collect();
}

/// Keys of a seen dot, ascending, which fill the longest store or go a little beyond it.
fn too_long(random: &mut Random, rack: &Rack, fields: &mut Fields) {
    let known = (1..=ACTOR_MAX).find(|actor| rack.state.base(Actor(*actor)) > 0);
    let dot = Dot::from((known.unwrap_or(1), 1));
    let length = STORE_MAX + random.below(3);
    let fixed = label_key_size(fields.name.len(), 0);
    let number = length.div_ceil(fixed + LABEL_MAX);
    let end_of = |key: usize| length * key / number;
    let keys = (0..number).flat_map(|key| {
        let label = end_of(key + 1) - end_of(key) - fixed;
        let text = format!("{key:04}{:x<LABEL_MAX$}", "");
        label_key(&fields.name, &text.as_bytes()[..label], dot)
    });
    fields.keys = keys.collect();
}

/// An actor for a box that loads an image of this controller: mostly one whose row is empty, else the
/// writer's, one with a row, or none.
pub fn actor(random: &mut Random, state: &State) -> u8 {
    let row = |actor: u8| (state.base(Actor(actor)), state.window(Actor(actor)));
    let free = (1..=ACTOR_MAX).filter(|actor| *actor != state.actor().0 && row(*actor) == (0, 0));
    match (random.below(10), random.any(&free.collect::<Vec<_>>())) {
        (0..=6, Some(actor)) => actor,
        (7, _) => state.actor().0,
        _ => pools::any_actor(random),
    }
}

/// The store that is lent for so many bytes of keys: ample, just as long, shorter, the longest or
/// longer.
pub fn lend(random: &mut Random, used: usize) -> Tool {
    let fill = random.byte();
    let length = match random.below(16) {
        0 | 1 => used,
        2 => used.saturating_sub(1),
        3 => random.below(used + 1),
        4 => STORE_MAX,
        5 => STORE_MAX + 1 + random.below(100),
        _ => (used + random.below(400)).min(STORE_MAX),
    };
    Tool::Buffer { length, fill }
}
