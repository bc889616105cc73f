//! "Swapping a dead box" (document 02): the bytes of an image, both sides of each line that writing
//! and loading draw, and what a box that has loaded one goes on with.
mod common;
use common::*;
use reference::*;

const B7: &[u8] = b"B7";
/// An actor of which nobody has heard anything.
const FRESH: u8 = 16;

/// Loads an image as a fresh actor into a store that is long enough.
fn loaded(image: &[u8]) -> (u8, Bench) {
    let mut bench = Bench::new(3);
    let answer = bench.load(FRESH, image);
    (answer, bench)
}

/// Checks that the fields with this change are loaded with this answer.
fn answers(answer: u8, what: &str, change: impl Fn(&mut ImageFields)) {
    let mut fields = ImageFields::lived();
    change(&mut fields);
    assert_eq!(loaded(&fields.bytes()).0, answer, "{what}");
}

#[test]
fn crc_of_the_documents_text_and_of_others() {
    assert_eq!(crc32(b"123456789"), 0xCBF4_3926);
    assert_eq!(crc32(b""), 0);
    assert_eq!(crc32(b"a"), 0xE8B7_BE43);
    assert_eq!(crc32(&[0; 32]), 0x190A_55AD);
    assert_eq!(crc32(&[0xFF; 32]), 0xFF6C_AB0B);
    let every_byte: Vec<u8> = (0..=255).collect();
    assert_eq!(crc32(&every_byte), 0x2905_8C73);
}

/// Case A1's controller, byte by byte.
#[test]
fn image_of_one_label() {
    let mut bench = Bench::new(1);
    bench.add(B7, &[]);
    let mut wanted = vec![0x50, 0x54, 0x4C, 0, 1, 0x69, 2, 0x52, 0x31, 1];
    wanted.extend([0, 0, 0, 0, 0, 0, 0, 1]);
    wanted.extend([0; 248]);
    wanted.extend([0, 0, 0, 0, 19]);
    wanted.extend([2, 1, 0x52, 0x31, 0, 0x65, 0x42, 0x37, 0, 1, 0]);
    wanted.extend([0, 0, 0, 0, 0, 0, 0, 1]);
    wanted.extend([0x23, 0xFE, 0x6B, 0xCB]);
    assert_eq!(wanted.len(), 294);
    assert_eq!(bench.image(), (0, wanted));
    let fresh = Bench::new(1).image().1;
    assert_eq!(fresh.len(), 275);
    assert_eq!(fresh[271..], [0x73, 0xDA, 0x92, 0x1E]);
}

/// Rows, tombstone and keys stand in the image as they are held; a read controller loses nothing.
#[test]
fn image_of_all_fields() {
    let (answer, mut bench) = loaded(&ImageFields::lived().bytes());
    assert_eq!(answer, 0);
    bench.state.actor = 1;
    assert_eq!(bench.image(), (0, ImageFields::lived().bytes()));
    assert_eq!(bench.row(2), (4, 0b110));
    assert_eq!(bench.tombstone(), dots(&[(1, 2), (2, 6)]));
    assert_eq!(bench.used(), ImageFields::lived().keys);
}

#[test]
fn writing_needs_room_for_all() {
    let (_, bench) = loaded(&ImageFields::lived().bytes());
    let length = ImageFields::lived().bytes().len();
    let (answer, whole) = bench.image_into(length);
    assert_eq!((answer, whole.len()), (0, length));
    assert_eq!(bench.image_into(length + 1), (0, whole));
    for room in [0, 5, length - 1] {
        assert_eq!(bench.image_into(room), (13, vec![]));
    }
    let mut damaged = bench.clone();
    damaged.state.used -= 1;
    assert_eq!(damaged.image_into(0), (1, vec![]));
    damaged.store.resize(65_537, 0);
    assert_eq!(damaged.image_into(length).0, 1);
}

/// An image that breaks all rules, mended a rule a step.
#[test]
fn load_ladder() {
    let mut broken = ImageFields::lived();
    broken.name = b"R\x001".to_vec();
    broken.rows[3] = (0, 1);
    let mut wrong_crc = broken.bytes();
    *wrong_crc.last_mut().unwrap() ^= 1;
    let mut named = broken.clone();
    named.name = b"R1".to_vec();
    let steps: [(usize, u8, Vec<u8>, u8); 11] = [
        (65_537, 1, b"PTX".to_vec(), 1),
        (56, 1, b"PTX\x00\x02q".to_vec(), 2),
        (56, 1, b"PTL\x00\x02q".to_vec(), 3),
        (56, 1, b"PTL\x00\x01q".to_vec(), 4),
        (56, 1, [&wrong_crc[..], &[0]].concat(), 4),
        (56, 1, wrong_crc, 14),
        (56, 1, broken.bytes(), 15),
        (56, FRESH, broken.bytes(), 5),
        (56, FRESH, named.bytes(), 6),
        (56, FRESH, ImageFields::lived().bytes(), 12),
        (57, FRESH, ImageFields::lived().bytes(), 0),
    ];
    for (store, actor, image, answer) in steps {
        let mut bench = Bench::with_store(9, store);
        assert_eq!(bench.load(actor, &image), answer);
    }
}

#[test]
fn mark_version_and_kind() {
    let whole = ImageFields::lived().bytes();
    let with = |at: usize, byte: u8| {
        let mut changed = whole[..whole.len() - 4].to_vec();
        changed[at] = byte;
        loaded(&with_crc(&changed)).0
    };
    assert_eq!([with(0, b'Q'), with(1, b't'), with(2, 0)], [2; 3]);
    assert_eq!([with(3, 1), with(4, 0), with(4, 2), with(3, 255)], [3; 4]);
    assert_eq!([with(5, b'a'), with(5, b'r'), with(5, b'I')], [4; 3]);
    assert_eq!([with(5, 0x68), with(5, 0x6A), with(5, 0x69)], [4, 4, 0]);
    assert_eq!(loaded(b"PTL\x00").0, 2);
    assert_eq!(loaded(b"PTL\x00\x02").0, 3);
    assert_eq!(loaded(b"PTL\x00\x01").0, 4);
    let add = add_message(b"R1", B7, (2, 1), &[]);
    assert_eq!((loaded(&add).0, Bench::new(1).take(&whole)), (4, 4));
}

/// What is cut off or left over is told by the structure, though the CRC be right for the bytes.
#[test]
fn every_length_but_its_own() {
    let whole = ImageFields::lived().bytes();
    for length in 0..whole.len() {
        let answer = if length < 5 { 2 } else { 4 };
        assert_eq!(loaded(&whole[..length]).0, answer, "{length}");
    }
    for length in 5..whole.len() - 4 {
        assert_eq!(loaded(&with_crc(&whole[..length])).0, 4, "{length}");
    }
    for more in [1, 4, 9] {
        assert_eq!(loaded(&[&whole[..], &vec![0; more]].concat()).0, 4);
    }
}

/// Lengths and numbers that cut the rest elsewhere.
#[test]
fn lengths_that_do_not_add_up() {
    let whole = ImageFields::lived().bytes();
    let (name_at, count_at) = (6, 266);
    let used_at = count_at + 1 + 18;
    assert_eq!((whole[name_at], whole[count_at]), (2, 2));
    assert_eq!(whole[used_at..used_at + 4], [0, 0, 0, 57]);
    for (at, byte) in [
        (name_at, 1),
        (name_at, 255),
        (count_at, 0),
        (count_at, 255),
        (used_at, 255),
        (used_at + 3, 56),
        (used_at + 3, 58),
    ] {
        let mut changed = whole[..whole.len() - 4].to_vec();
        changed[at] = byte;
        assert_eq!(loaded(&with_crc(&changed)).0, 4, "{at} {byte}");
    }
}

#[test]
fn the_new_actor_is_free() {
    let image = ImageFields::lived().bytes();
    let load = |actor| Bench::new(1).load(actor, &image);
    // The writer's own, one with a base, one with a window alone, and such as are none.
    assert_eq!([1, 2, 5, 0, 17, 255].map(load), [15; 6]);
    assert_eq!([3, 4, 6, 15, 16].map(load), [0; 5]);
    // A writer that has added nothing: its row is empty, and yet its own.
    let fresh = ImageFields::new(7).bytes();
    let load = |actor| Bench::new(1).load(actor, &fresh);
    assert_eq!([7, 6, 8].map(load), [15, 0, 0]);
    // A row that is no row is not empty, and its actor is refused first.
    let mut odd = ImageFields::lived();
    odd.rows[3] = (0, 1);
    let load = |actor| Bench::new(1).load(actor, &odd.bytes());
    assert_eq!([4, 3].map(load), [15, 6]);
}

#[test]
fn name_and_writers_actor() {
    for name in [&b"R"[..], b"\xff", b"0123456789abcdef"] {
        let mut fields = ImageFields::new(1);
        fields.name = name.to_vec();
        let (answer, bench) = loaded(&fields.bytes());
        let length = bench.state.name_len as usize;
        assert_eq!((answer, &bench.state.name[..length]), (0, name));
    }
    for name in [&b""[..], b"R\x00", b"\x00", &[b'n'; 17], &[b'n'; 255]] {
        answers(5, "name", |fields| fields.name = name.to_vec());
    }
    for actor in [0, 17, 255] {
        answers(5, "writer's actor", |fields| fields.actor = actor);
        answers(5, "before 6", |fields| {
            fields.actor = actor;
            fields.tombstone.push((0, 0));
        });
    }
    answers(
        6,
        "another writer: keys and rows are judged as its own",
        |fields| {
            fields.actor = 2;
        },
    );
    answers(0, "another writer whose window is 0", |fields| {
        fields.actor = 6
    });
}

#[test]
fn rows_of_an_image() {
    answers(6, "bit 0", |fields| fields.rows[9] = (0, 1));
    answers(6, "the writer's window", |fields| fields.rows[0].1 = 0b10);
    answers(0, "largest counter", |fields| {
        fields.rows[9] = (LARGEST - 64, 1 << 63);
    });
    answers(6, "past the largest counter", |fields| {
        fields.rows[9] = (LARGEST - 63, 1 << 63);
    });
    answers(0, "largest base", |fields| fields.rows[9] = (LARGEST, 0));
    answers(6, "a dot of a key unseen", |fields| fields.rows[4] = (0, 0));
    answers(6, "a dot of the tombstone unseen", |fields| {
        fields.rows[1] = (4, 0b100);
    });
}

#[test]
fn tombstones_of_an_image() {
    let set = |list: &[(u8, u64)]| {
        let list = list.to_vec();
        move |fields: &mut ImageFields| fields.tombstone = list.clone()
    };
    answers(0, "none", set(&[]));
    answers(6, "twice", set(&[(1, 2), (1, 2)]));
    answers(6, "order", set(&[(2, 6), (1, 2)]));
    answers(6, "unseen", set(&[(2, 5)]));
    answers(6, "of an actor unseen", set(&[(9, 1)]));
    answers(6, "actor 0", set(&[(0, 1)]));
    answers(6, "actor 17", set(&[(17, 1)]));
    answers(6, "counter 0", set(&[(1, 0)]));
    for (count, answer) in [(128, 0), (129, 6), (255, 6)] {
        answers(answer, "number of dots", |fields| {
            fields.rows[8] = (255, 0);
            fields.tombstone = dots_of(9, 1..=count);
        });
    }
}

#[test]
fn keys_of_an_image() {
    let set = |keys: &[Vec<u8>]| {
        let keys = keys.concat();
        move |fields: &mut ImageFields| fields.keys = keys.clone()
    };
    let first = key(B7, (1, 1));
    answers(0, "none", set(&[]));
    answers(6, "twice", set(&[first.clone(), first.clone()]));
    answers(6, "order", set(&[key(b"B8", (1, 1)), first.clone()]));
    answers(6, "unseen", set(&[key(B7, (1, 3))]));
    answers(6, "no label", set(&[key(b"", (1, 1))]));
    answers(6, "label of 33", set(&[key(&[b'x'; 33], (1, 1))]));
    answers(0, "label of 32", set(&[key(&[b'x'; 32], (1, 1))]));
    answers(6, "cut key", set(&[first[..18].to_vec()]));
    answers(6, "left over", set(&[first.clone(), vec![2]]));
    answers(
        6,
        "clock key",
        set(&[b"\x02\x01R1\x00c\x00\x01\x00".to_vec()]),
    );
    answers(6, "no key", set(&[vec![0; 19]]));
    answers(6, "other set", |fields| fields.name = b"R2".to_vec());
}

/// The longest store and one byte more; all keys are such as a store may have.
#[test]
fn the_longest_used_length() {
    let mut fields = ImageFields::new(1);
    fields.rows[1] = (3639, 0);
    let keys: Vec<Vec<u8>> = (1..=3639).map(|event| key(b"B", (2, event))).collect();
    fields.keys = keys.concat();
    fields.keys.extend(key(&[b'x'; 17], (2, 1)));
    assert_eq!(fields.keys.len(), 65_536);
    let mut bench = Bench::with_store(1, 65_536);
    assert_eq!(bench.load(FRESH, &fields.bytes()), 0);
    assert_eq!(bench.list().2, 2);
    let mut short = Bench::with_store(1, 65_535);
    assert_eq!(short.load(FRESH, &fields.bytes()), 12);
    fields.keys.truncate(65_536 - 34);
    fields.keys.extend(key(&[b'x'; 18], (2, 1)));
    assert_eq!(fields.keys.len(), 65_537);
    assert_eq!(bench.load(FRESH, &fields.bytes()), 6);
    assert_eq!(short.load(FRESH, &fields.bytes()), 6);
}

#[test]
fn a_store_shorter_than_the_keys() {
    let image = ImageFields::lived().bytes();
    for (length, answer) in [
        (0, 12),
        (56, 12),
        (57, 0),
        (58, 0),
        (65_536, 0),
        (65_537, 1),
    ] {
        let mut bench = Bench::with_store(1, length);
        assert_eq!(bench.load(FRESH, &image), answer, "{length}");
    }
    let mut bench = Bench::with_store(1, 0);
    assert_eq!(bench.load(FRESH, &ImageFields::new(1).bytes()), 0);
}

/// All is the writer's but the actor; the store past the keys is as it was (`Bench::load`).
#[test]
fn a_loaded_box_has_all_but_the_actor() {
    let mut writer = Bench::new(1);
    let other = add_message(b"R1", b"C", (2, 5), &[(3, 64)]);
    writer.add(B7, &[]);
    assert_eq!(writer.take(&other), 0);
    writer.add(b"B8", &[(1, 1)]);
    let mut bench = Bench::with_store(9, 100);
    bench.add(b"Z", &[]);
    assert_eq!(bench.load(4, &writer.image().1), 0);
    assert_eq!(bench.used(), writer.used());
    let mut state = bench.state.clone();
    state.actor = 1;
    assert_eq!(state, writer.state);
    assert_eq!(bench.list(), writer.list());
}

/// Own adds go on under the new actor from 1; what the writer sent before is known, what it sent
/// after the image comes in as from any other.
#[test]
fn a_loaded_box_goes_on() {
    let mut writer = Bench::new(1);
    let (_, before) = writer.add(B7, &[]);
    let image = writer.image().1;
    let (_, after) = writer.add(b"B8", &[(1, 1)]);
    let (_, remove) = writer.remove(&[(1, 2)]);
    let (answer, mut bench) = loaded(&image);
    assert_eq!(answer, 0);
    assert_eq!(bench.take(&before), 0);
    assert_eq!(bench.state.used, 19);
    let (answer, message) = bench.add(b"A", &[]);
    let own = add_message(b"R1", b"A", (FRESH, 1), &[]);
    assert_eq!((answer, &message), (0, &own));
    assert_eq!((bench.take(&after), bench.take(&remove)), (0, 0));
    assert_eq!(bench.list(), (0, entry(b"A", &[(FRESH, 1)]), 1));
    assert_eq!(writer.take(&own), 0);
    assert_eq!(writer.list(), bench.list());
    assert_eq!(bench.take(&add_message(b"R1", b"A", (FRESH, 2), &[])), 8);
}

/// The bytes in which two images of one length differ.
fn differing(one: &[u8], other: &[u8]) -> Vec<usize> {
    assert_eq!(one.len(), other.len());
    (0..one.len()).filter(|at| one[*at] != other[*at]).collect()
}

#[test]
fn written_again_at_once() {
    let image = ImageFields::lived().bytes();
    let (actor_at, crc_at) = (9, image.len() - 4);
    for actor in [3, 4, 6, FRESH] {
        let mut bench = Bench::with_store(2, 64);
        assert_eq!(bench.load(actor, &image), 0);
        let again = bench.image().1;
        assert_eq!(again[actor_at], actor);
        let elsewhere = |at: &&usize| **at != actor_at && **at < crc_at;
        let places = differing(&image, &again);
        assert_eq!(places.iter().find(elsewhere), None, "{places:?}");
        assert!(places.iter().any(|at| *at >= crc_at));
        assert_eq!(again, with_crc(&again[..crc_at]));
    }
}

/// Loads with one bit turned over; what must be refused, and how.
fn flipped(image: &[u8], bit: usize) -> u8 {
    let mut changed = image.to_vec();
    changed[bit / 8] ^= 1 << (bit % 8);
    loaded(&changed).0
}

#[test]
fn every_flipped_bit_of_a_small_image_is_refused() {
    let image = ImageFields::lived().bytes();
    let mut met = [0; 16];
    for bit in 0..8 * image.len() {
        met[usize::from(flipped(&image, bit))] += 1;
    }
    // The mark and the version; the kind, the lengths of name, tombstone and keys; all others.
    let shape = 8 + 8 + 8 + 32;
    let rest = 8 * image.len() - 24 - 16 - shape;
    assert_eq!(met[..5], [0, 0, 24, 16, shape]);
    assert_eq!(
        (met[14], met.iter().sum::<usize>()),
        (rest, 8 * image.len())
    );
}

#[test]
fn flipped_bits_of_larger_images_are_refused() {
    let mut random = Xorshift(0x5EED_0007);
    for number in [40, 400, 3000] {
        let mut fields = ImageFields::lived();
        fields.rows[1] = (number, 0);
        fields.tombstone = dots_of(2, 1..=40);
        let keys = (1..=number).map(|event| key(b"D", (2, event)));
        fields.keys = keys.collect::<Vec<_>>().concat();
        let image = fields.bytes();
        let mut bench = Bench::with_store(3, 65_536);
        assert_eq!(bench.load(FRESH, &image), 0);
        for _ in 0..300 {
            let bit = random.below(8 * image.len() as u64) as usize;
            assert!([2, 3, 4, 14].contains(&flipped(&image, bit)), "{bit}");
        }
    }
}

/// Two bits, or a stretch of up to 32: a CRC of 32 bits tells all of these too.
#[test]
fn short_bursts_are_refused() {
    let image = ImageFields::lived().bytes();
    let mut random = Xorshift(0x5EED_0008);
    for _ in 0..5000 {
        let at = random.below(image.len() as u64 - 4) as usize;
        let noise = (random.next() as u32 | 1).to_be_bytes();
        let mut changed = image.clone();
        for (byte, noise) in changed[at..].iter_mut().zip(noise) {
            *byte ^= noise;
        }
        assert!([2, 3, 4, 14].contains(&loaded(&changed).0), "{at}");
    }
}

/// "Its dot is the controller's actor with the number of own adds that this controller has accepted
/// under that actor so far."
#[test]
fn the_rule_counts_own_adds_by_actor() {
    let mut writer = Rule::new(1);
    writer.own_add(B7, &[]);
    writer.own_add(b"B8", &[]);
    let mut rule = writer.handed_off(4);
    rule.own_add(b"A", &[]);
    rule.own_add(b"C", &[Dot::new(1, 1).unwrap()]);
    let entries = [
        entry(b"A", &[(4, 1)]),
        entry(b"B8", &[(1, 2)]),
        entry(b"C", &[(4, 2)]),
    ];
    assert_eq!(rule.listing(), (entries.concat(), 3));
    writer.own_add(b"D", &[]);
    assert!(writer.seen().contains(&Dot::new(1, 3).unwrap()));
    assert!(!rule.seen().contains(&Dot::new(1, 3).unwrap()));
}
