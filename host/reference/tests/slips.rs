//! "Slips that would light the wrong bin": the five of them, each with what must hold instead.
mod common;
use common::*;

#[test]
fn slip_1_a_repeated_add_after_compaction_is_not_stored() {
    let mut bench = Bench::new(2);
    let add = add_message(b"R1", b"B7", (1, 1), &[]);
    assert_eq!(bench.take(&add), 0);
    assert_eq!(bench.remove(&[(1, 1)]).0, 0);
    assert_eq!(bench.compact(), 0);
    assert_eq!((bench.state.used, bench.state.count), (0, 0));
    assert_eq!(bench.take(&add), 0);
    assert_eq!((bench.state.used, bench.list().2), (0, 0));
}

#[test]
fn slip_2_a_context_names_its_dots_only() {
    let mut bench = Bench::new(1);
    for label in [&b"A"[..], b"B", b"C"] {
        bench.add(label, &[]);
    }
    assert_eq!(bench.remove(&[(1, 3)]).0, 0);
    let wanted = [entry(b"A", &[(1, 1)]), entry(b"B", &[(1, 2)])].concat();
    assert_eq!(bench.list(), (0, wanted, 2));
}

#[test]
fn slip_3_an_unseen_dot_joins_the_clock_not_the_tombstone() {
    let mut bench = Bench::new(2);
    assert_eq!(bench.take(&remove_message(b"R1", &[(1, 5)])), 0);
    assert_eq!((bench.row(1), bench.state.count), ((0, 1 << 4), 0));
    assert_eq!(bench.list().0, 0);
    assert_eq!(bench.take(&add_message(b"R1", b"B7", (1, 5), &[])), 0);
    assert_eq!(bench.state.used, 0);
}

#[test]
fn slip_4_a_shift_by_64_leaves_nothing() {
    let mut bench = Bench::new(1);
    bench.set_row(3, 0, !1);
    assert_eq!(bench.take(&remove_message(b"R1", &[(3, 1)])), 0);
    assert_eq!(bench.row(3), (64, 0));
    bench.set_row(4, 0, !1 & !(1 << 63));
    assert_eq!(bench.take(&remove_message(b"R1", &[(4, 1)])), 0);
    assert_eq!(bench.row(4), (63, 0));
}

#[test]
fn slip_5_one_removed_dot_leaves_the_label() {
    let mut bench = Bench::new(1);
    bench.add(b"B7", &[]);
    bench.add(b"B7", &[]);
    assert_eq!(bench.remove(&[(1, 2)]).0, 0);
    assert_eq!(bench.list(), (0, entry(b"B7", &[(1, 1)]), 1));
    assert!(bench.lookup(b"B7").listed);
    assert_eq!(bench.lookup(b"B7").end, 38);
    assert_eq!(bench.compact(), 0);
    assert_eq!(bench.used(), key(b"B7", (1, 1)));
}
