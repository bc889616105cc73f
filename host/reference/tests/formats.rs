//! "Bytes of a key" and "Bytes of a message": both forms, their refusals, and the one-to-one
//! tie between bytes and values.
mod common;
use common::*;
use reference::*;

/// Writes a key with an ample output.
fn wrote(kind: KeyKind, name: &[u8], label: &[u8], actor: u8, counter: u64) -> (u8, Vec<u8>) {
    let mut out = [0xA5; 100];
    let (answer, count) = write_key(kind, name, label, actor, counter, &mut out);
    (answer, written(&out, count))
}

fn nothing_read() -> KeyRead {
    KeyRead {
        answer: 4,
        kind: None,
        name: vec![],
        label: vec![],
        actor: 0,
        counter: 0,
    }
}

#[test]
fn keys_of_the_four_types() {
    let clock = b"\x02\x01R1\x00c\x00\x03\x00".to_vec();
    let tombstone = b"\x02\x01R1\x00d\x00\x10\x00".to_vec();
    let end = b"\x02\x01R1\x00z\x00\x00".to_vec();
    assert_eq!(wrote(KeyKind::Clock, b"R1", b"", 3, 0), (0, clock));
    assert_eq!(wrote(KeyKind::Tombstone, b"R1", b"", 16, 0), (0, tombstone));
    assert_eq!(wrote(KeyKind::End, b"R1", b"", 0, 0), (0, end));
    let label = wrote(KeyKind::Label, b"R1", b"B7", 3, LARGEST);
    assert_eq!(label, (0, key(b"B7", (3, LARGEST))));
}

#[test]
fn fields_the_type_lacks_are_not_looked_at() {
    for kind in [KeyKind::Clock, KeyKind::Tombstone, KeyKind::End] {
        let with = wrote(kind, b"R1", b"a\x00b", 3, 7);
        assert_eq!(with, wrote(kind, b"R1", b"", 3, 0));
        let read = read_key(&with.1);
        let actor = if kind == KeyKind::End { 0 } else { 3 };
        assert_eq!((read.answer, read.kind), (0, Some(kind)));
        assert_eq!((read.name, read.label), (b"R1".to_vec(), vec![]));
        assert_eq!((read.actor, read.counter), (actor, 0));
    }
    assert_eq!(wrote(KeyKind::End, b"R1", b"", 99, 0).0, 0);
}

#[test]
fn write_key_refusals() {
    let label = KeyKind::Label;
    let cases: [(KeyKind, &[u8], &[u8], u8, u64, u8); 9] = [
        (label, b"", b"B7", 1, 1, 5),
        (KeyKind::End, &[b'n'; 17], b"", 0, 0, 5),
        (KeyKind::Clock, b"R\x001", b"", 1, 0, 5),
        (label, b"R1", b"", 1, 1, 5),
        (label, b"R1", &[b'x'; 33], 1, 1, 5),
        (label, b"R1", b"B7", 0, 1, 5),
        (KeyKind::Tombstone, b"R1", b"", 17, 0, 5),
        (label, b"R1", b"B7", 17, 0, 5),
        (label, b"R1", b"B7", 16, 0, 6),
    ];
    for (kind, name, text, actor, counter, answer) in cases {
        assert_eq!(wrote(kind, name, text, actor, counter), (answer, vec![]));
        let short = write_key(kind, name, text, actor, counter, &mut []);
        assert_eq!(short, (answer, 0), "before 13");
    }
    for (kind, length) in [(label, 19), (KeyKind::Clock, 9), (KeyKind::End, 8)] {
        let mut out = vec![7; length];
        let short = write_key(kind, b"R1", b"B7", 1, 1, &mut out[1..]);
        assert_eq!((short, &out), ((13, 0), &vec![7; length]));
        let fits = write_key(kind, b"R1", b"B7", 1, 1, &mut out);
        assert_eq!(fits, (0, length as u64));
    }
}

#[test]
fn read_key_refusals() {
    let cases: [&[u8]; 16] = [
        b"",
        b"\x02\x01",
        b"\x01\x01R1\x00z\x00\x00",
        b"\x02\x02R1\x00z\x00\x00",
        b"\x02\x01\x00z\x00\x00",
        b"\x02\x010123456789abcdefg\x00z\x00\x00",
        b"\x02\x01R1\x00x\x00\x00",
        b"\x02\x01R1\x00z\x00",
        b"\x02\x01R1\x00z\x00\x01\x00",
        b"\x02\x01R1\x00zB\x00\x00",
        b"\x02\x01R1\x00c\x00\x00\x00",
        b"\x02\x01R1\x00d\x00\x11\x00",
        b"\x02\x01R1\x00cB\x00\x01\x00",
        b"\x02\x01R1\x00c\x00\x01\x01",
        b"\x02\x01R1\x00c\x00\x01\x00\x00\x00\x00\x00\x00\x00\x00\x01",
        b"\x02\x01R1\x00e\x00\x01\x00\x00\x00\x00\x00\x00\x00\x00\x01",
    ];
    for bytes in cases {
        assert_eq!(read_key(bytes), nothing_read(), "{bytes:?}");
    }
    for dot in [(0, 1), (17, 1), (1, 0)] {
        assert_eq!(read_key(&key(b"B7", dot)), nothing_read());
    }
    assert_eq!(read_key(&key(&[b'x'; 33], (1, 1))), nothing_read());
    assert_eq!(read_key(&key(&[b'x'; 32], (1, 1))).answer, 0);
}

#[test]
fn nothing_left_over_and_nothing_missing() {
    let kinds = [
        KeyKind::Clock,
        KeyKind::Tombstone,
        KeyKind::Label,
        KeyKind::End,
    ];
    for kind in kinds {
        let (_, whole) = wrote(kind, b"R1", b"B7", 3, 258);
        assert_eq!(read_key(&whole).kind, Some(kind));
        for length in 0..whole.len() {
            assert_eq!(read_key(&whole[..length]), nothing_read());
        }
        for more in [0, 1] {
            let longer = [&whole[..], &[more]].concat();
            assert_eq!(read_key(&longer), nothing_read(), "{kind:?}");
        }
    }
}

/// A random text without zero bytes, of few letters so that shared beginnings are common.
fn text(random: &mut Xorshift, longest: u64) -> Vec<u8> {
    let length = 1 + random.below(longest);
    (0..length).map(|_| *random.pick(&[1, 2, 255])).collect()
}

#[test]
fn label_keys_round_trip_in_order() {
    let mut random = Xorshift(0x5EED_0001);
    let kinds = [
        KeyKind::Clock,
        KeyKind::Tombstone,
        KeyKind::Label,
        KeyKind::End,
    ];
    let mut before = None;
    for _ in 0..20_000 {
        let at = random.below(4) as usize;
        let (name, label) = (text(&mut random, 3), text(&mut random, 4));
        let actor = 1 + random.below(16) as u8;
        let counter = 1 + *random.pick(&[0, 1, 255, 256, LARGEST - 1]);
        let (answer, bytes) = wrote(kinds[at], &name, &label, actor, counter);
        assert_eq!(answer, 0);
        let read = read_key(&bytes);
        let again = wrote(kinds[at], &read.name, &read.label, read.actor, read.counter);
        assert_eq!(again, (0, bytes.clone()));
        if kinds[at] == KeyKind::Label {
            assert_eq!((&read.name, &read.label), (&name, &label));
            assert_eq!((read.actor, read.counter), (actor, counter));
            assert_eq!(bytes.len(), name.len() + label.len() + 15);
        }
        let fields = (read.name, at, read.label, read.actor, read.counter);
        if let Some((old_fields, old_bytes)) = &before {
            assert_eq!(fields.cmp(old_fields), bytes.cmp(old_bytes));
        }
        before = Some((fields, bytes));
    }
}

#[test]
fn message_front() {
    let answer = |bytes: &[u8]| read_message(bytes).answer;
    assert_eq!(answer(b""), 2);
    assert_eq!(answer(b"PTL\x00"), 2);
    assert_eq!(answer(b"PTM\x00\x01r\x01R\x00"), 2);
    assert_eq!(answer(b"PTL\x00\x02"), 3);
    assert_eq!(answer(b"PTL\x01\x01r\x01R\x00"), 3);
    assert_eq!(answer(b"PTL\x00\x00r\x01R\x00"), 3);
    assert_eq!(answer(b"PTL\x00\x01"), 4);
    assert_eq!(answer(b"PTL\x00\x01x\x01R\x00"), 4);
    assert_eq!(answer(b"PTL\x00\x01r\x01R\x00"), 0);
}

#[test]
fn structure_comes_before_rules() {
    let cases = [
        (remove_message(b"", &[]), 5),
        (remove_message(&[b'n'; 17], &[]), 5),
        (remove_message(b"R\x00", &[]), 5),
        (add_message(b"R1", b"", (1, 1), &[]), 5),
        (add_message(b"R1", &[b'x'; 33], (0, 0), &[]), 5),
        (add_message(b"R1", &[b'x'; 255], (1, 1), &[]), 5),
        (add_message(b"R1", b"\x00", (1, 1), &[]), 5),
        (add_message(b"R1", b"B\x7F", (0, 0), &[]), 5),
        (remove_message(b"R1", &dots_of(1, 1..=65)), 6),
        (remove_message(b"R1", &dots_of(1, 1..=255)), 6),
        (add_message(b"R1", b"B7", (1, 1), &[(1, 1)]), 6),
        (add_message(b"R1", b"B7", (17, 1), &[]), 6),
        (remove_message(b"", &[(0, 0)]), 5),
    ];
    for (bytes, answer) in cases {
        assert_eq!(read_message(&bytes).answer, answer);
        assert_eq!(read_message(&bytes).message, None);
        assert_eq!(read_message(&[&bytes[..], &[0]].concat()).answer, 4);
        for length in 5..bytes.len() {
            assert_eq!(read_message(&bytes[..length]).answer, 4);
        }
    }
}

#[test]
fn longest_message() {
    let context = dots_of(2, 1..=64);
    let bytes = add_message(&[b'n'; 16], &[b'x'; 32], (16, LARGEST), &context);
    assert_eq!(bytes.len(), 642);
    let message = read_message(&bytes).message.unwrap();
    assert_eq!(message.bytes(), bytes);
    assert_eq!(message.add.unwrap().1, Dot::new(16, LARGEST).unwrap());
    assert_eq!(message.context.len(), 64);
}
