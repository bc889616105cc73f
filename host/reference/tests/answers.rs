//! "When a controller says no": every answer of every call, and their order. A ladder starts
//! with a call that breaks all rules and mends one rule a step, so the answers must ascend.
mod common;
use common::*;
use reference::*;

const B7: &[u8] = b"B7";

/// Actor 1 with own base 1, a full tombstone of dots of actor 2, and a store of this length.
fn crowded(store: usize) -> Bench {
    let mut bench = Bench::with_store(1, store);
    bench.set_row(1, 1, 0);
    bench.set_row(2, 200, 0);
    bench.set_tombstone(&dots_of(2, 1..=128));
    bench
}

/// The same with a used length past the store.
fn damaged() -> Bench {
    let mut bench = crowded(18);
    bench.state.used = 19;
    bench
}

#[test]
fn set_up_answers() {
    let (answer, state) = set_up(16, b"0123456789abcdef");
    assert_eq!((answer, state.actor, state.name_len), (0, 16, 16));
    assert_eq!((state.clock, state.count, state.used), ([0; 32], 0, 0));
    assert_eq!(set_up(1, b"R").1.name[..2], *b"R\x00");
    let refused: [(u8, &[u8]); 5] = [
        (0, b"R1"),
        (17, b"R1"),
        (1, b""),
        (1, b"0123456789abcdefg"),
        (1, b"R\x00"),
    ];
    for (actor, name) in refused {
        assert_eq!(set_up(actor, name), (5, State::zero()));
    }
    assert_eq!(list(&State::zero(), &[], &mut []).answer, 1);
}

#[test]
fn own_add_ladder() {
    let mixed: &[(u8, u64)] = &[(3, 65), (1, 3)];
    let own: &[(u8, u64)] = &[(1, 3), (2, 129), (3, 65)];
    let steps: [(Bench, &[u8], &[(u8, u64)], usize, u8); 9] = [
        (damaged(), b"", mixed, 0, 1),
        (crowded(18), b"", mixed, 0, 5),
        (crowded(18), B7, mixed, 0, 6),
        (crowded(18), B7, own, 0, 8),
        (crowded(18), B7, &own[1..], 0, 10),
        (crowded(18), B7, &own[1..2], 0, 11),
        (crowded(18), B7, &[], 0, 12),
        (crowded(19), B7, &[], 21, 13),
        (crowded(19), B7, &[], 22, 0),
    ];
    for (mut bench, label, context, room, answer) in steps {
        let done = bench.add_bytes(label, &dots(context), room);
        assert_eq!(done.0, answer);
    }
}

#[test]
fn own_add_at_the_largest_counter() {
    let mut bench = Bench::new(1);
    bench.set_row(1, LARGEST - 1, 0);
    assert_eq!(bench.add(B7, &[(1, LARGEST)]).0, 6);
    let (answer, message) = bench.add(B7, &[]);
    assert_eq!(answer, 0);
    assert_eq!(message, add_message(b"R1", B7, (1, LARGEST), &[]));
    assert_eq!(bench.row(1), (LARGEST, 0));
    assert_eq!(bench.add(B7, &[(3, 65)]).0, 9);
    assert_eq!(bench.add(B7, &[(1, LARGEST)]).0, 9);
    assert_eq!(bench.add(B7, &[(1, 0)]).0, 6);
    assert_eq!(bench.add(b"", &[]).0, 5);
    assert_eq!(bench.remove(&[(1, LARGEST)]).0, 0);
    assert_eq!(bench.list(), (0, vec![], 0));
}

#[test]
fn own_remove_ladder() {
    let own: &[(u8, u64)] = &[(1, 2), (2, 129), (3, 65)];
    let steps: [(Bench, &[(u8, u64)], usize, u8); 7] = [
        (damaged(), &[(3, 65), (1, 2)], 0, 1),
        (crowded(18), &[(3, 65), (1, 2)], 0, 6),
        (crowded(18), own, 0, 8),
        (crowded(18), &own[1..], 0, 10),
        (crowded(18), &own[1..2], 0, 11),
        (crowded(18), &[(2, 128)], 18, 13),
        (crowded(18), &[(2, 128)], 19, 0),
    ];
    for (mut bench, context, room, answer) in steps {
        assert_eq!(bench.remove_bytes(&dots(context), room).0, answer);
    }
}

#[test]
fn own_remove_of_nothing_writes_its_message() {
    let mut bench = Bench::new(1);
    let before = bench.clone();
    assert_eq!(bench.remove(&[]), (0, b"PTL\x00\x01r\x02R1\x00".to_vec()));
    assert_eq!(bench, before);
    assert_eq!(bench.take(b"PTL\x00\x01r\x02R1\x00"), 0);
    assert_eq!(bench, before);
}

#[test]
fn take_in_ladder() {
    let own: &[(u8, u64)] = &[(1, 3), (2, 129), (3, 65)];
    let steps: [(Bench, Vec<u8>, u8); 12] = [
        (damaged(), b"PTX".to_vec(), 1),
        (crowded(18), b"PTX\x00\x02q".to_vec(), 2),
        (crowded(18), b"PTL\x00\x02q".to_vec(), 3),
        (crowded(18), b"PTL\x00\x01q".to_vec(), 4),
        (crowded(18), add_message(b"R2", b"", (0, 0), &[]), 5),
        (crowded(18), add_message(b"R2", B7, (0, 0), &[]), 6),
        (crowded(18), add_message(b"R2", B7, (4, 1), own), 7),
        (crowded(18), add_message(b"R1", B7, (4, 1), own), 8),
        (crowded(18), add_message(b"R1", B7, (4, 1), &own[1..]), 10),
        (crowded(18), add_message(b"R1", B7, (4, 1), &own[1..2]), 11),
        (crowded(18), add_message(b"R1", B7, (4, 1), &[]), 12),
        (crowded(19), add_message(b"R1", B7, (4, 1), &[]), 0),
    ];
    for (mut bench, message, answer) in steps {
        assert_eq!(bench.take(&message), answer);
    }
}

#[test]
fn take_in_of_dots_that_break_their_rule() {
    let mut bench = Bench::new(1);
    for dot in [(0, 1), (17, 1), (2, 0)] {
        assert_eq!(bench.take(&add_message(b"R1", B7, dot, &[])), 6);
        assert_eq!(bench.take(&remove_message(b"R1", &[dot])), 6);
    }
    for context in [[(2, 1), (2, 1)], [(2, 2), (2, 1)], [(3, 1), (2, 1)]] {
        assert_eq!(bench.take(&remove_message(b"R1", &context)), 6);
    }
    assert_eq!(bench.take(&add_message(b"R1", B7, (2, 1), &[(2, 1)])), 6);
}

#[test]
fn repeated_add_applies_its_context() {
    let mut bench = crowded(4096);
    bench.set_tombstone(&dots_of(2, 1..=127));
    let repeated = |context| add_message(b"R1", B7, (2, 150), context);
    assert_eq!(bench.take(&repeated(&[(3, 65)])), 10);
    assert_eq!(bench.take(&repeated(&[(2, 128), (2, 129)])), 11);
    assert_eq!(bench.take(&repeated(&[(2, 128), (3, 64)])), 0);
    assert_eq!((bench.state.count, bench.state.used), (128, 0));
    assert_eq!(bench.row(3), (0, 1 << 63));
    bench.store.truncate(0);
    assert_eq!(bench.take(&repeated(&[])), 0);
}

#[test]
fn context_bytes_that_are_no_dots() {
    let mut bench = Bench::new(1);
    for length in [1, 8, 10, 17] {
        let bytes = &dots(&[(2, 1), (3, 1)])[..length];
        assert_eq!(bench.add_bytes(B7, bytes, MESSAGE_ROOM).0, 6);
        assert_eq!(bench.remove_bytes(bytes, MESSAGE_ROOM).0, 6);
    }
}

#[test]
fn list_answers() {
    let mut bench = Bench::new(1);
    bench.add(B7, &[]);
    let mut out = [7; 15];
    let short = list(&bench.state, &bench.store, &mut out[..13]);
    assert_eq!((short.answer, short.written, short.labels), (13, 0, 0));
    assert_eq!(out, [7; 15]);
    let done = list(&bench.state, &bench.store, &mut out[..14]);
    assert_eq!((done.answer, done.written, done.labels), (0, 14, 1));
    assert_eq!((&out[..14], out[14]), (&entry(B7, &[(1, 1)])[..], 7));
    bench.state.actor = 0;
    let refused = list(&bench.state, &bench.store, &mut []);
    assert_eq!((refused.answer, refused.written, refused.labels), (1, 0, 0));
}

/// Labels A, B7 with two dots and C, in entries of 13, 23 and 13 bytes; B8 has a removed dot only.
fn three_labels() -> Bench {
    let mut bench = Bench::new(1);
    for label in [&b"B7"[..], b"C", b"B8", b"A", b"B7"] {
        bench.add(label, &[]);
    }
    bench.remove(&[(1, 3)]);
    bench
}

/// The entries of the three labels.
fn three_entries() -> [Vec<u8>; 3] {
    let b7 = entry(B7, &[(1, 1), (1, 5)]);
    [entry(b"A", &[(1, 4)]), b7, entry(b"C", &[(1, 2)])]
}

#[test]
fn pages_are_cut_where_the_room_ends() {
    let (bench, entries) = (three_labels(), three_entries());
    let steps = [(13, 1), (35, 1), (36, 2), (48, 2), (49, 3), (50, 3)];
    for (room, labels) in steps {
        let (answer, page) = bench.page(b"", room);
        assert_eq!((answer, page.bytes), (0, entries[..labels].concat()));
        assert_eq!((page.labels, page.more), (labels as u64, labels < 3));
    }
    assert_eq!(bench.page(b"", 12), (13, no_page()));
    assert_eq!(bench.page(b"", 0), (13, no_page()));
    assert_eq!(bench.page(b"A", 22), (13, no_page()));
    assert_eq!(bench.page(b"C", 0), (0, no_page()));
}

#[test]
fn pages_start_after_any_label() {
    let (bench, entries) = (three_labels(), three_entries());
    let starts: [(&[u8], usize); 11] = [
        (b"", 0),
        (b"@", 0),
        (b"A", 1),
        (b"A\x01", 1),
        (b"B", 1),
        (b"B6\xff", 1),
        (b"B7", 2),
        (b"B70", 2),
        (b"B8", 2),
        (b"C", 3),
        (&[255; 32], 3),
    ];
    for (start, from) in starts {
        let (answer, page) = bench.page(start, 100);
        assert_eq!((answer, page.bytes), (0, entries[from..].concat()));
        assert_eq!((page.labels, page.more), (3 - from as u64, false));
    }
}

#[test]
fn page_ladder() {
    let mut bad = three_labels();
    bad.state.used -= 1;
    let good = three_labels();
    let long = [b'A'; 33];
    let steps: [(&Bench, &[u8], usize, u8); 9] = [
        (&bad, &long, 0, 1),
        (&bad, b"", 100, 1),
        (&good, &long, 0, 5),
        (&good, b"\x00", 0, 5),
        (&good, b"A\x00", 100, 5),
        (&good, &long, 100, 5),
        (&good, &long[..32], 12, 13),
        (&good, &long[..32], 23, 0),
        (&good, b"", 13, 0),
    ];
    for (bench, start, room, answer) in steps {
        assert_eq!(bench.page(start, room).0, answer);
    }
}

#[test]
fn a_page_of_no_labels_is_ended() {
    let mut bench = Bench::new(1);
    assert_eq!(bench.page(b"", 0), (0, no_page()));
    bench.add(B7, &[]);
    assert_eq!(bench.page(b"", 0), (13, no_page()));
    assert_eq!(bench.page(B7, 0), (0, no_page()));
    bench.remove(&[(1, 1)]);
    assert_eq!(bench.page(b"", 0), (0, no_page()));
    assert_eq!(bench.page(b"", 100), (0, no_page()));
}

/// Each page speaks of the state that it finds.
#[test]
fn calls_between_pages() {
    let mut bench = three_labels();
    let (_, first) = bench.page(b"", 13);
    assert_eq!(last_label(&first.bytes), Some(&b"A"[..]));
    bench.remove(&[(1, 1), (1, 4), (1, 5)]);
    bench.add(b"0", &[]);
    let (answer, next) = bench.page(b"A", 13);
    assert_eq!((answer, next.bytes), (0, entry(b"C", &[(1, 2)])));
    assert_eq!((next.labels, next.more), (1, false));
}

/// Two controllers: actor 1 added B7 and B8, of which actor 2 took in the first; actor 2 added B7
/// and C, of which actor 1 took in the second.
fn two_racks() -> [Bench; 2] {
    let (mut one, mut two) = (Bench::new(1), Bench::new(2));
    assert_eq!(two.take(&one.add(B7, &[]).1), 0);
    one.add(b"B8", &[]);
    two.add(B7, &[]);
    assert_eq!(one.take(&two.add(b"C", &[]).1), 0);
    [one, two]
}

/// What both list, and what one lists and the other has not seen.
#[test]
fn merged_reads_keep_what_only_one_has_heard_of() {
    let [one, two] = two_racks();
    let b7 = entry(B7, &[(1, 1), (2, 1)]);
    let all = [b7, entry(b"B8", &[(1, 2)]), entry(b"C", &[(2, 2)])].concat();
    assert_eq!(one.merge(&two), (0, all.clone(), 3));
    assert_eq!(one.list().2, 3);
    assert_eq!(two.list().2, 2);
    for room in [0, all.len() - 1] {
        assert_eq!(one.merge_into(&two, room), (13, vec![], 0));
    }
    assert_eq!(one.merge_into(&two, all.len()), (0, all, 3));
}

/// What one lists and the other has seen and does not list is gone, compacted or not; what neither
/// tombstone has any more too.
#[test]
fn merged_reads_drop_what_one_has_removed() {
    let [mut one, mut two] = two_racks();
    two.remove(&[(1, 1), (2, 1)]);
    one.remove(&[(2, 2)]);
    let left = entry(b"B8", &[(1, 2)]);
    assert_eq!(one.merge(&two), (0, left.clone(), 1));
    assert_eq!((one.compact(), two.compact()), (0, 0));
    assert_eq!(one.merge(&two), (0, left, 1));
    // A remove that comes before the add: the dot is seen, and was never stored.
    assert_eq!(two.take(&remove_message(b"R1", &[(1, 2)])), 0);
    assert_eq!(one.merge(&two), (0, vec![], 0));
}

/// The dots count, not the labels: either may have removed those that the other keeps.
#[test]
fn merged_reads_take_each_dot_by_itself() {
    let [mut one, mut two] = two_racks();
    one.remove(&[(1, 1)]);
    two.remove(&[(2, 2)]);
    two.add(b"C", &[]);
    let b7 = entry(B7, &[(2, 1)]);
    let all = [b7, entry(b"B8", &[(1, 2)]), entry(b"C", &[(2, 3)])].concat();
    assert_eq!(one.merge(&two), (0, all, 3));
}

/// Outside demand 3's proviso: one dot under two labels, of which each lists one. Both have seen
/// the dot, so that neither label is kept.
#[test]
fn merged_reads_of_a_dot_under_two_labels() {
    let (mut one, mut two) = (Bench::new(1), Bench::new(1));
    one.add(B7, &[]);
    two.add(b"B8", &[]);
    assert_eq!(one.merge(&two), (0, vec![], 0));
    let both = [key(B7, (1, 1)), key(b"B8", (1, 1))].concat();
    two.set_used(&both);
    assert_eq!(one.merge(&two), (0, entry(B7, &[(1, 1)]), 1));
}

#[test]
fn a_controller_merged_with_itself_is_its_listing() {
    for bench in two_racks().into_iter().chain([Bench::new(3)]) {
        assert_eq!(bench.merge(&bench), bench.list());
    }
    let (one, two) = (Bench::with_store(1, 0), Bench::with_store(2, 9));
    assert_eq!(one.merge_into(&two, 0), (0, vec![], 0));
}

#[test]
fn merge_ladder() {
    let [one, two] = two_racks();
    let mut bad = one.clone();
    bad.state.used -= 1;
    let mut long = two.clone();
    long.store.resize(65_537, 0);
    let mut other = Bench::new(2);
    other.state = set_up(2, b"R2").1;
    let mut empty = Bench::new(2);
    empty.state = set_up(2, b"R").1;
    let steps: [(&Bench, &Bench, usize, u8); 11] = [
        (&bad, &bad, 0, 1),
        (&bad, &other, 0, 1),
        (&other, &bad, 0, 1),
        (&one, &long, 300, 1),
        (&long, &one, 300, 1),
        (&one, &other, 0, 7),
        (&other, &one, 300, 7),
        (&empty, &two, 300, 7),
        (&one, &two, 49, 13),
        (&one, &two, 50, 0),
        (&other, &other, 0, 0),
    ];
    for (one, two, room, answer) in steps {
        assert_eq!(one.merge_into(two, room).0, answer);
    }
}

#[test]
fn lookup_answers() {
    let mut bench = Bench::new(1);
    for label in [&b"B7"[..], b"B8", b"B7"] {
        bench.add(label, &[]);
    }
    bench.remove(&[(1, 2)]);
    let looked = |label: &[u8]| {
        let done = bench.lookup(label);
        (done.answer, done.start, done.end, done.listed)
    };
    assert_eq!(looked(b"B7"), (0, 0, 38, true));
    assert_eq!(looked(b"B8"), (0, 38, 57, false));
    assert_eq!(looked(b"B"), (0, 0, 0, false));
    assert_eq!(looked(b"B70"), (0, 38, 38, false));
    assert_eq!(looked(b"C"), (0, 57, 57, false));
    assert_eq!(looked(b""), (5, 0, 0, false));
    assert_eq!(looked(b"B\x00"), (5, 0, 0, false));
    let mut bad = bench.clone();
    bad.state.used -= 1;
    let refused = bad.lookup(b"");
    assert_eq!((refused.answer, refused.start, refused.end), (1, 0, 0));
}

#[test]
fn compact_answers() {
    let mut bench = Bench::new(1);
    for _ in 0..3 {
        bench.add(B7, &[]);
    }
    bench.set_row(2, 9, 0);
    bench.remove(&[(1, 2), (2, 4)]);
    let mut bad = bench.clone();
    bad.state.used += 1;
    assert_eq!(bad.compact(), 1);
    assert_eq!(bench.compact(), 0);
    assert_eq!(bench.used(), [key(B7, (1, 1)), key(B7, (1, 3))].concat());
    assert_eq!(bench.store[38..57], [0; 19]);
    assert_eq!(bench.state.count, 0, "(2,4) had no key, and goes too");
    assert_eq!(bench.state.tombstone, State::zero().tombstone);
}

/// With nothing to drop a compaction still empties the tombstone.
#[test]
fn compaction_of_dots_without_keys() {
    let mut bench = Bench::new(1);
    bench.add(B7, &[]);
    bench.set_row(2, 9, 0);
    bench.set_tombstone(&dots_of(2, 1..=9));
    let before = bench.clone();
    assert_eq!(bench.compact(), 0);
    assert_eq!((bench.state.count, bench.state.used), (0, 19));
    assert_eq!(bench.state.tombstone, State::zero().tombstone);
    assert_eq!(bench.store, before.store);
    assert_eq!(bench.state.clock, before.state.clock);
}

#[test]
fn freed_bytes_are_used_again() {
    let mut bench = Bench::with_store(1, 19);
    assert_eq!(bench.add(B7, &[]).0, 0);
    assert_eq!(bench.add(B7, &[(1, 1)]).0, 12);
    assert_eq!(bench.remove(&[(1, 1)]).0, 0);
    assert_eq!(bench.compact(), 0);
    assert_eq!(bench.store, [0; 19]);
    assert_eq!(bench.add(B7, &[]).0, 0);
    assert_eq!(bench.used(), key(B7, (1, 2)));
}

#[test]
fn the_longest_store_filled_to_the_brim() {
    let mut bench = Bench::with_store(1, 65_536);
    bench.set_row(2, 3639, 0);
    let keys: Vec<Vec<u8>> = (1..=3639).map(|event| key(b"B", (2, event))).collect();
    bench.set_used(&keys.concat());
    assert_eq!(bench.state.used, 65_502);
    assert_eq!(bench.add(&[b'x'; 18], &[]).0, 12);
    assert_eq!(bench.add(&[b'x'; 17], &[]).0, 0);
    assert_eq!(bench.state.used, 65_536);
    assert_eq!(bench.add(b"B", &[]).0, 12);
    let wanted = [
        entry(b"B", &dots_of(2, 1..=3639)),
        entry(&[b'x'; 17], &[(1, 1)]),
    ];
    assert_eq!(bench.list(), (0, wanted.concat(), 2));
    assert_eq!(bench.remove(&dots_of(2, 1..=16)).0, 0);
    assert_eq!(bench.compact(), 0);
    assert_eq!(bench.state.used, 65_536 - 16 * 18);
}

/// A remove that comes again leaves a dot without a key; 128 of these fill the tombstone, and a
/// compaction takes them out.
#[test]
fn repeated_removes_fill_the_tombstone_until_a_compaction() {
    let mut bench = Bench::new(1);
    for event in 1..=128 {
        let remove = remove_message(b"R1", &[(2, event)]);
        assert_eq!((bench.take(&remove), bench.take(&remove)), (0, 0));
        assert_eq!(bench.state.count, event);
    }
    assert_eq!(bench.add(B7, &[]).0, 0);
    assert_eq!(bench.remove(&[(1, 1)]).0, 11);
    assert_eq!(bench.remove(&[(2, 128)]).0, 0);
    assert_eq!((bench.compact(), bench.state.count), (0, 0));
    assert_eq!(bench.list().2, 1);
    assert_eq!(bench.remove(&[(1, 1)]).0, 0);
    assert_eq!((bench.tombstone(), bench.list().2), (dots(&[(1, 1)]), 0));
    let late = add_message(b"R1", B7, (2, 7), &[]);
    assert_eq!((bench.take(&late), bench.list().2), (0, 0));
}
