//! A block of images written and loaded, on both sides of each rule, the same in every recording.

use crate::common::{add_message, dots, dots_of, key, with_crc, ImageFields, LARGEST};
use crate::recording::{Node, Recording};
use reference::{DONE, STORE_FULL};

/// An output in which each image has room.
pub const IMAGE: usize = 2048;
/// An actor of which no image here has heard anything.
const FRESH: u8 = 16;

/// Bytes of the image that `images` starts from, and what is put in their place under a right CRC.
const FAULTS: [(usize, u8); 19] = [
    (0, b'Q'),
    (2, b'l'),
    (3, 1),
    (4, 2),
    (5, b'a'),
    (5, b'j'),
    (6, 0),
    (6, 1),
    (6, 255),
    (7, 0),
    (8, b'2'),
    (9, 0),
    (9, 2),
    (9, 17),
    (266, 0),
    (266, 255),
    (285, 255),
    (288, 56),
    (288, 58),
];

/// Images of a controller that works, and of fields that break a rule; loaded as actors of every kind.
pub fn images(recording: &mut Recording) {
    let image = written(recording);
    let mut node = recording.start(1, 9, b"R1", 96);
    for actor in [0, 1, 2, 17, 255, 3] {
        node.load(actor, &image);
    }
    node.image(IMAGE);
    node.add(b"B7", &dots(&[(1, 1)]));
    node.take(&add_message(b"R1", b"A", (1, 3), &[(2, 2)]));
    node.take(&add_message(b"R1", b"A", (3, 2), &[]));
    node.list(IMAGE);
    node.compact();
    node.image(IMAGE);
    other_bytes(&mut recording.start(2, 1, b"R1", 64));
    other_fields(&mut recording.start(3, 1, b"R1", 64));
    stores(&mut recording.start(0, 1, b"R1", 64));
}

/// Images of one controller as it goes on, in outputs next to what is needed. The last one.
fn written(recording: &mut Recording) -> Vec<u8> {
    let mut node = recording.start(0, 1, b"R1", 96);
    node.image(IMAGE);
    node.add(b"B7", b"");
    node.take(&add_message(b"R1", b"C", (2, 5), &[(2, 64)]));
    node.add(b"B8", &dots(&[(1, 1)]));
    let image = node.image(IMAGE).written;
    for out in [0, 274, image.len() - 1, image.len()] {
        node.image(out);
    }
    node.say("poke used 55");
    node.image(IMAGE);
    node.image(0);
    node.say("poke used 56");
    image
}

/// Images with bytes changed, under the CRC that they had and under a right one; cut off, and longer.
fn other_bytes(node: &mut Node) {
    let image = ImageFields::lived().bytes();
    let (body, _) = image.split_at(image.len() - 4);
    for (at, byte) in FAULTS {
        let mut changed = body.to_vec();
        changed[at] = byte;
        node.load(FRESH, &with_crc(&changed));
    }
    for at in [
        0,
        3,
        5,
        9,
        10,
        17,
        200,
        270,
        290,
        body.len(),
        body.len() + 3,
    ] {
        let mut changed = image.clone();
        changed[at] ^= 1;
        node.load(FRESH, &changed);
    }
    for length in [0, 4, 5, 6, 7, 10, 266, 285, 289, body.len(), body.len() + 3] {
        node.load(FRESH, &image[..length]);
    }
    node.load(FRESH, &[&image[..], &[0]].concat());
    node.load(1, &[body, &[0; 4]].concat());
    let loaded = node.load(FRESH, &image);
    assert_eq!(loaded.answer, Some(DONE));
}

/// Images under a right CRC whose fields break a rule, or just keep it.
fn other_fields(node: &mut Node) {
    let rows = [
        (0, 1),
        (LARGEST - 64, 1 << 63),
        (LARGEST - 63, 1 << 63),
        (LARGEST, 0),
        (LARGEST, 2),
    ];
    for row in rows {
        let mut fields = ImageFields::lived();
        fields.rows[8] = row;
        node.load(FRESH, &fields.bytes());
        node.load(9, &fields.bytes());
    }
    let tombstones = [
        &[(1, 2), (1, 2)][..],
        &[(2, 1), (1, 1)],
        &[(2, 5)],
        &[(0, 1)],
    ];
    for tombstone in tombstones {
        let mut fields = ImageFields::lived();
        fields.tombstone = tombstone.to_vec();
        node.load(FRESH, &fields.bytes());
    }
    for count in [128, 129] {
        let mut fields = ImageFields::new(1);
        fields.rows[8] = (200, 0);
        fields.tombstone = dots_of(9, 1..=count);
        node.load(FRESH, &fields.bytes());
    }
    let keys = [
        [key(b"B8", (1, 1)), key(b"B7", (1, 1))].concat(),
        key(b"B7", (1, 3)),
        key(&[b'x'; 33], (1, 1)),
        key(b"B7", (1, 1))[..18].to_vec(),
        b"\x02\x01R1\x00c\x00\x01\x00".to_vec(),
    ];
    for keys in keys {
        let mut fields = ImageFields::lived();
        fields.keys = keys;
        node.load(FRESH, &fields.bytes());
    }
    names(node);
}

/// Set names on both sides of their rule.
fn names(node: &mut Node) {
    for name in [&b""[..], b"R\x00", &[b'n'; 17], &[b'n'; 16], b"\xff"] {
        let mut fields = ImageFields::new(2);
        fields.name = name.to_vec();
        node.load(1, &fields.bytes());
    }
    node.image(IMAGE);
}

/// Stores that are too short, just long enough and too long.
fn stores(node: &mut Node) {
    let image = ImageFields::lived().bytes();
    for length in [0, 56, 57] {
        node.lend(length);
        node.load(FRESH, &image);
    }
    assert_eq!(node.load(1, &image).answer, Some(15));
    node.lend(56);
    assert_eq!(node.load(FRESH, &image).answer, Some(STORE_FULL));
    node.lend(0);
    node.load(FRESH, &ImageFields::new(1).bytes());
    for length in [65_536, 65_537] {
        node.lend(length);
        node.load(FRESH, &image);
        node.load(1, b"PTL");
        node.say("buffer 57 9");
    }
}
