//! "Both sides of the line": every case, set "R1", label "B7".
mod common;
use common::*;
use reference::*;

const B7: &[u8] = b"B7";

#[test]
fn k1_key_bytes() {
    let wanted = [
        0x02, 0x01, 0x52, 0x31, 0x00, 0x65, 0x42, 0x37, 0x00, 0x03, 0, 0, 0, 0, 0, 0, 0, 1, 2,
    ];
    let mut out = [9; 20];
    let answer = write_key(KeyKind::Label, b"R1", B7, 3, 258, &mut out);
    assert_eq!(answer, (0, 19));
    assert_eq!(out[..19], wanted);
    assert_eq!(out[19], 9);
    let read = read_key(&wanted);
    assert_eq!((read.answer, read.kind), (0, Some(KeyKind::Label)));
    assert_eq!((read.name, read.label), (b"R1".to_vec(), B7.to_vec()));
    assert_eq!((read.actor, read.counter), (3, 258));
}

#[test]
fn m1_remove_message() {
    let wanted = [
        0x50, 0x54, 0x4C, 0x00, 0x01, 0x72, 0x02, 0x52, 0x31, 0x01, 0x03, 0, 0, 0, 0, 0, 0, 1, 2,
    ];
    let mut bench = Bench::new(1);
    bench.set_row(3, 300, 0);
    assert_eq!(bench.remove(&[(3, 258)]), (0, wanted.to_vec()));
    let message = read_message(&wanted).message.unwrap();
    assert_eq!(message.name, b"R1");
    assert_eq!(message.add, None);
    assert_eq!(message.context, vec![Dot::new(3, 258).unwrap()]);
}

#[test]
fn a1_first_add() {
    let wanted = [
        0x50, 0x54, 0x4C, 0x00, 0x01, 0x61, 0x02, 0x52, 0x31, 0x02, 0x42, 0x37, 0x01, 0, 0, 0, 0,
        0, 0, 0, 1, 0,
    ];
    let listing = [0x02, 0x42, 0x37, 0x00, 0x01, 0x01, 0, 0, 0, 0, 0, 0, 0, 1];
    let mut bench = Bench::new(1);
    assert_eq!(bench.add(B7, &[]), (0, wanted.to_vec()));
    assert_eq!(bench.list(), (0, listing.to_vec(), 1));
    assert_eq!(bench.used(), key(B7, (1, 1)));
    assert_eq!(bench.row(1), (1, 0));
}

#[test]
fn a2_second_add_and_compaction() {
    let mut bench = Bench::new(1);
    bench.add(B7, &[]);
    let (answer, message) = bench.add(B7, &[(1, 1)]);
    assert_eq!(answer, 0);
    assert_eq!(message, add_message(b"R1", B7, (1, 2), &[(1, 1)]));
    assert_eq!(bench.tombstone(), dots(&[(1, 1)]));
    assert_eq!(bench.state.used, 38);
    assert_eq!(bench.list(), (0, entry(B7, &[(1, 2)]), 1));
    assert_eq!(bench.compact(), 0);
    assert_eq!(bench.used(), key(B7, (1, 2)));
    assert_eq!((bench.state.used, bench.state.count), (19, 0));
    assert_eq!(bench.state.tombstone, State::zero().tombstone);
}

#[test]
fn r1_remove_before_add() {
    let (_, message) = Bench::new(1).add(B7, &[]);
    let mut bench = Bench::new(2);
    assert_eq!(bench.take(&remove_message(b"R1", &[(1, 1)])), 0);
    assert_eq!((bench.row(1), bench.state.count), ((1, 0), 0));
    assert_eq!(bench.take(&message), 0);
    assert_eq!((bench.state.used, bench.state.count), (0, 0));
    assert_eq!(bench.list(), (0, vec![], 0));
}

#[test]
fn r1_remove_twice_and_compaction() {
    let mut bench = Bench::new(2);
    let remove = remove_message(b"R1", &[(1, 1)]);
    assert_eq!((bench.take(&remove), bench.take(&remove)), (0, 0));
    assert_eq!(bench.tombstone(), dots(&[(1, 1)]));
    assert_eq!((bench.compact(), bench.state.count), (0, 0));
    assert_eq!(bench.state.tombstone, State::zero().tombstone);
    assert_eq!((bench.row(1), bench.state.used), ((1, 0), 0));
}

#[test]
fn c1_one_of_two_dots() {
    let mut bench = Bench::new(2);
    bench.add(B7, &[]);
    assert_eq!(bench.take(&add_message(b"R1", B7, (1, 1), &[])), 0);
    assert_eq!(bench.list().1, entry(B7, &[(1, 1), (2, 1)]));
    assert_eq!(bench.remove(&[(1, 1)]).0, 0);
    assert_eq!(bench.list(), (0, entry(B7, &[(2, 1)]), 1));
    assert!(bench.lookup(B7).listed);
}

#[test]
fn w1_w2_w3_reach_of_the_window() {
    let mut bench = Bench::new(1);
    assert_eq!(bench.take(&add_message(b"R1", B7, (3, 64), &[])), 0);
    assert_eq!(bench.row(3), (0, 1 << 63));
    let mut bench = Bench::new(1);
    assert_eq!(bench.take(&add_message(b"R1", B7, (3, 65), &[])), 10);
    assert_eq!(bench.take(&remove_message(b"R1", &[(3, 65)])), 10);
    assert_eq!(bench.take(&add_message(b"R1", B7, (3, 1), &[(3, 65)])), 0);
    assert_eq!(bench.row(3), (1, 1 << 63));
    assert_eq!(bench.used(), key(B7, (3, 1)));
}

#[test]
fn w4_the_gap_closes() {
    let mut bench = Bench::new(1);
    for event in 2..=64 {
        assert_eq!(bench.take(&add_message(b"R1", B7, (3, event), &[])), 0);
    }
    assert_eq!(bench.row(3), (0, !1));
    assert_eq!(bench.take(&add_message(b"R1", B7, (3, 1), &[])), 0);
    assert_eq!(bench.row(3), (64, 0));
}

#[test]
fn n1_own_dot_from_elsewhere() {
    let mut bench = Bench::new(1);
    bench.add(B7, &[]);
    assert_eq!(bench.take(&add_message(b"R1", B7, (1, 2), &[])), 8);
    assert_eq!(bench.take(&remove_message(b"R1", &[(1, 2)])), 8);
    assert_eq!(bench.take(&add_message(b"R1", B7, (1, 1), &[])), 0);
}

#[test]
fn o1_order_of_keys() {
    let mut bench = Bench::new(1);
    for label in [&b"B8"[..], b"B70", b"B7"] {
        assert_eq!(bench.add(label, &[]).0, 0);
    }
    let keys = [key(B7, (1, 3)), key(b"B70", (1, 2)), key(b"B8", (1, 1))];
    assert!(keys[0] < keys[1] && keys[1] < keys[2]);
    assert_eq!(bench.used(), keys.concat());
}

#[test]
fn longest_label() {
    let mut bench = Bench::new(1);
    assert_eq!(bench.add(&[b'x'; 32], &[]).0, 0);
    assert_eq!(bench.add(&[b'x'; 33], &[]).0, 5);
    assert_eq!(bench.lookup(&[b'x'; 33]).answer, 5);
    let mut other = Bench::new(2);
    let with = |length| add_message(b"R1", &vec![b'x'; length], (1, 1), &[]);
    assert_eq!(other.take(&with(33)), 5);
    assert_eq!(other.take(&with(32)), 0);
}

/// Document 02, request 5: each byte as the first, one between and the last of a label.
#[test]
fn labels_that_print() {
    for (byte, at) in (0..=255).flat_map(|byte| [0, 1, 2].map(|at| (byte, at))) {
        let mut label = *b"B07";
        label[at] = byte;
        let added = if (0x20..=0x7E).contains(&byte) { 0 } else { 5 };
        let message = add_message(b"R1", &label, (1, 1), &[]);
        assert_eq!(Bench::new(1).add(&label, &[]).0, added, "{label:?}");
        assert_eq!(read_message(&message).answer, added, "{label:?}");
        assert_eq!(Bench::new(2).take(&message), added, "{label:?}");
        let kept = if byte == 0 { 5 } else { 0 };
        assert_eq!(Bench::new(1).lookup(&label).answer, kept, "{label:?}");
        assert_eq!(Bench::new(1).page(&label, 0).0, kept, "{label:?}");
        let written = write_key(KeyKind::Label, b"R1", &label, 1, 1, &mut [0; 64]);
        assert_eq!(written.0, kept, "{label:?}");
        let read = read_key(&key(&label, (1, 1))).answer;
        assert_eq!(read, if byte == 0 { 4 } else { 0 }, "{label:?}");
    }
}

/// "A store that already holds such a label is not damaged by it and is still listed, looked up
/// and compacted."
#[test]
fn labels_that_an_older_version_took() {
    let (bell, last) = (b"B\x07", b"\xFF\x7F");
    let mut bench = Bench::new(1);
    bench.set_row(1, 2, 0);
    let keys = [key(bell, (1, 1)), key(last, (1, 2))];
    bench.set_used(&keys.concat());
    let entries = [entry(bell, &[(1, 1)]), entry(last, &[(1, 2)])];
    assert_eq!(bench.list(), (0, entries.concat(), 2));
    assert_eq!(bench.page(b"", 14).1.bytes, entries[0]);
    assert_eq!(bench.page(bell, 14).1.bytes, entries[1]);
    assert!(bench.lookup(bell).listed && bench.lookup(last).listed);
    // What it would say of them is refused, by itself and by others; their dots are not.
    assert_eq!(bench.add(bell, &[(1, 1)]).0, 5);
    assert_eq!(bench.add(b"B7", &[(1, 1)]).0, 0);
    assert_eq!(bench.take(&remove_message(b"R1", &[(1, 2)])), 0);
    assert!(!bench.lookup(bell).listed && !bench.lookup(last).listed);
    assert_eq!(bench.compact(), 0);
    assert_eq!(bench.used(), key(b"B7", (1, 3)));
}

/// An add that was refused leaves a gap in its actor's row; a remove of its dot closes it.
#[test]
fn a_remove_closes_the_gap_of_a_refused_add() {
    let mut bench = Bench::new(1);
    assert_eq!(bench.take(&add_message(b"R1", b"\x07", (2, 1), &[])), 5);
    let late = add_message(b"R1", B7, (2, 65), &[]);
    assert_eq!(bench.take(&late), 10);
    assert_eq!(bench.take(&remove_message(b"R1", &[(2, 1)])), 0);
    assert_eq!(bench.take(&late), 0);
}

#[test]
fn longest_context() {
    let mut bench = Bench::new(1);
    bench.set_row(3, 65, 0);
    assert_eq!(bench.remove(&dots_of(3, 1..=65)).0, 6);
    assert_eq!(bench.add(B7, &dots_of(3, 1..=65)).0, 6);
    let taken = remove_message(b"R1", &dots_of(3, 1..=65));
    assert_eq!(bench.take(&taken), 6);
    assert_eq!(bench.add(B7, &dots_of(3, 1..=64)).0, 0);
    assert_eq!(bench.tombstone(), dots(&dots_of(3, 1..=64)));
}

#[test]
fn version_two_with_unknown_kind() {
    assert_eq!(Bench::new(1).take(b"PTL\x00\x02q"), 3);
    assert_eq!(Bench::new(1).take(b"PTL\x00\x01q"), 4);
}

#[test]
fn own_add_with_own_dots_to_come() {
    let mut bench = Bench::new(1);
    bench.add(B7, &[]);
    assert_eq!(bench.add(B7, &[(1, 2)]).0, 6);
    assert_eq!(bench.add(B7, &[(1, 3)]).0, 8);
    assert_eq!(bench.add(B7, &[(1, 2), (1, 3)]).0, 6);
    assert_eq!(bench.remove(&[(1, 2)]).0, 8);
    assert_eq!(bench.add(B7, &[(1, 1)]).0, 0);
}

#[test]
fn store_of_no_bytes() {
    let mut bench = Bench::with_store(1, 0);
    assert_eq!(bench.add(B7, &[]).0, 12);
    assert_eq!(bench.take(&add_message(b"R1", B7, (2, 1), &[])), 12);
    assert_eq!(bench.list(), (0, vec![], 0));
}

#[test]
fn second_remove_at_a_full_tombstone() {
    let mut bench = Bench::new(1);
    bench.set_row(2, 200, 0);
    bench.set_tombstone(&dots_of(2, 1..=128));
    let before = bench.clone();
    assert_eq!(bench.remove(&[(2, 128)]).0, 0);
    assert_eq!(bench, before);
    assert_eq!(bench.remove(&[(2, 129)]).0, 11);
    assert_eq!(bench.remove(&[(2, 201)]).0, 0);
    assert_eq!((bench.row(2), bench.state.count), ((201, 0), 128));
}
