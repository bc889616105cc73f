//! The clock's one form against the window rule read word for word, on random rows and near
//! the largest counter.
mod common;
use common::*;

/// The row with one event more, by shifting the window: none if it is out of reach.
fn shifted(base: u64, window: u64, event: u64) -> Option<(u64, u64)> {
    if event <= base {
        return Some((base, window));
    }
    let bit = event - base - 1;
    if bit > 63 {
        return None;
    }
    let full = window | 1 << bit;
    let ones = (!full).trailing_zeros();
    let rest = full.checked_shr(ones).unwrap_or(0);
    Some((base + u64::from(ones), rest))
}

/// Takes in a remove of one dot of actor 3, whose row is given.
fn took(base: u64, window: u64, event: u64) -> Option<(u64, u64)> {
    let mut bench = Bench::new(1);
    bench.set_row(3, base, window);
    let answer = bench.take(&remove_message(b"R1", &[(3, event)]));
    assert!(answer == 0 || answer == 10, "{base} {window:b} {event}");
    (answer == 0).then(|| bench.row(3))
}

#[test]
fn random_rows() {
    let mut random = Xorshift(0x5EED_0002);
    let mut moved = 0;
    for _ in 0..20_000 {
        let base = *random.pick(&[0, 1, 63, 64, 1 << 40]) + random.below(3);
        let holes = random.next() & random.next() & random.next();
        let any = random.next();
        let window = *random.pick(&[0, any, !holes, !1]) & !1;
        let event = base.saturating_sub(1).max(1) + random.below(70);
        let wanted = shifted(base, window, event);
        assert_eq!(took(base, window, event), wanted);
        moved += u32::from(wanted.is_some_and(|row| row.0 > base + 1));
    }
    assert!(moved > 50, "bases must move by more than one: {moved}");
}

#[test]
fn every_run_length() {
    for length in 0..=63 {
        let run = ((1u128 << (length + 1)) - 2) as u64;
        assert_eq!(took(7, run, 8), Some((8 + length, 0)));
        if length < 62 {
            let apart = 1u64 << 63;
            let left = apart >> (length + 1);
            assert_eq!(took(7, run | apart, 8), Some((8 + length, left)));
        }
    }
}

#[test]
fn near_the_largest_counter() {
    assert_eq!(took(LARGEST - 1, 0, LARGEST), Some((LARGEST, 0)));
    assert_eq!(took(LARGEST, 0, LARGEST), Some((LARGEST, 0)));
    assert_eq!(
        took(LARGEST - 64, 0, LARGEST),
        Some((LARGEST - 64, 1 << 63))
    );
    assert_eq!(took(LARGEST - 65, 0, LARGEST), None);
    assert_eq!(took(0, 0, LARGEST), None);
    let full = took(LARGEST - 64, !1, LARGEST - 63);
    assert_eq!(full, Some((LARGEST, 0)));
}

#[test]
fn all_offered_dots_count_together() {
    let mut bench = Bench::new(1);
    let bridge = dots_of(3, 1..=16);
    assert_eq!(bench.remove(&[(3, 80)]).0, 10);
    let with = [&bridge[..15], &[(3, 80)]].concat();
    assert_eq!(bench.remove(&with).0, 10);
    let with = [&bridge[..15], &[(3, 79)]].concat();
    assert_eq!(bench.remove(&with).0, 0);
    assert_eq!(bench.row(3), (15, 1 << 63));
}
