//! "What a controller holds": each sentence broken in turn must answer 1 from every call that
//! takes a state, and the nearest sound state must not.
mod common;
use common::*;
use reference::*;

/// Actor 2 with two labels, a tombstone of one stored dot, and rows with and without window.
fn sound() -> Bench {
    let mut bench = Bench::with_store(2, 100);
    bench.set_row(2, 1, 0);
    bench.set_row(3, 4, 0b110);
    bench.set_row(5, LARGEST - 3, 0b110);
    bench.set_used(&[key(b"B7", (3, 2)), key(b"B8", (2, 1))].concat());
    bench.set_tombstone(&[(3, 2), (3, 6)]);
    bench
}

/// The answers of all calls that take a state, each with arguments that it accepts.
fn answers(bench: &Bench) -> [u8; 9] {
    [
        bench.clone().add(b"A", &[]).0,
        bench.clone().remove(&[(3, 5)]).0,
        bench.clone().take(&remove_message(b"R1", &[(3, 5)])),
        bench.list().0,
        bench.page(b"", 100).0,
        bench.lookup(b"B7").answer,
        bench.merge(&sound()).0,
        bench.image().0,
        bench.clone().compact(),
    ]
}

/// Checks that this change of the sound state is damage, and comes before all other refusals.
fn is_damage(what: &str, change: impl Fn(&mut Bench)) {
    let mut bench = sound();
    change(&mut bench);
    assert_eq!(answers(&bench), [1; 9], "{what}");
    assert_eq!(bench.clone().add_bytes(b"", &[0], 0).0, 1, "{what}");
    assert_eq!(bench.clone().remove_bytes(&[0], 0).0, 1, "{what}");
    assert_eq!(bench.clone().take(b""), 1, "{what}");
    assert_eq!(bench.page(&[0], 0).0, 1, "{what}");
    assert_eq!(bench.image_into(0).0, 1, "{what}");
    let other = Bench {
        state: set_up(2, b"other").1,
        store: Vec::new(),
    };
    assert_eq!(bench.merge_into(&other, 0).0, 1, "{what}");
    assert_eq!(other.merge_into(&bench, 0).0, 1, "{what}");
    let refused = lookup(&bench.state, &bench.store, b"");
    assert_eq!((refused.start, refused.end, refused.listed), (0, 0, false));
}

/// Checks that this change of the sound state leaves it sound.
fn is_sound(what: &str, change: impl Fn(&mut Bench)) {
    let mut bench = sound();
    change(&mut bench);
    assert_eq!(answers(&bench), [0; 9], "{what}");
}

#[test]
fn the_sound_state() {
    is_sound("as it is", |_| ());
}

#[test]
fn actor_and_name() {
    is_damage("actor 0", |b| b.state.actor = 0);
    is_damage("actor 17", |b| b.state.actor = 17);
    is_damage("no name", |b| {
        b.state.name = [0; 16];
        b.state.name_len = 0;
        b.state.used = 0;
    });
    is_damage("zero in name", |b| {
        b.state.name_len = 3;
        b.state.used = 0;
    });
    is_damage("past the name", |b| b.state.name[15] = 1);
    for length in [1, 17, 1 << 32, LARGEST] {
        is_damage("name length", |b| b.state.name_len = length);
    }
}

#[test]
fn clock_rows() {
    is_damage("bit 0", |b| b.set_row(4, 0, 1));
    is_damage("bit 0 of many", |b| b.set_row(4, 9, 0b111));
    is_damage("own window", |b| b.set_row(2, 1, 0b10));
    is_damage("another's own window", |b| b.state.actor = 3);
    is_sound("bit at the largest counter", |b| {
        b.set_row(4, LARGEST - 64, 1 << 63)
    });
    is_damage("bit past the largest counter", |b| {
        b.set_row(4, LARGEST - 63, 1 << 63)
    });
    is_damage("window above the largest base", |b| {
        b.set_row(16, LARGEST, 0b10)
    });
    is_sound("largest base", |b| b.set_row(16, LARGEST, 0));
}

#[test]
fn tombstone_dots() {
    is_sound("none", |b| b.set_tombstone(&[]));
    is_damage("unseen in a gap", |b| b.set_tombstone(&[(3, 5)]));
    is_damage("unseen", |b| b.set_tombstone(&[(6, 1)]));
    is_damage("own unseen", |b| b.set_tombstone(&[(2, 2)]));
    is_damage("actor 0", |b| b.set_tombstone(&[(0, 1)]));
    is_damage("actor 17", |b| b.set_tombstone(&[(17, 1)]));
    is_damage("counter 0", |b| b.set_tombstone(&[(3, 0)]));
    is_damage("twice", |b| b.set_tombstone(&[(3, 1), (3, 1)]));
    is_damage("order", |b| b.set_tombstone(&[(3, 1), (2, 1)]));
    is_damage("bytes past the dots", |b| b.state.tombstone[1151] = 1);
    is_damage("count too small", |b| b.state.count = 1);
    is_damage("count too large", |b| b.state.count = 3);
    for count in [129, 1 << 32, LARGEST] {
        is_damage("count", |b| b.state.count = count);
    }
    is_sound("128", |b| {
        b.set_row(7, 128, 0);
        b.set_tombstone(&dots_of(7, 1..=128));
    });
}

#[test]
fn store_length() {
    is_damage("used past the store", |b| b.store.truncate(37));
    is_damage("used far past it", |b| b.state.used = LARGEST);
    is_sound("longest", |b| b.store.resize(65_536, 0));
    is_damage("longer", |b| b.store.resize(65_537, 0));
    is_sound("unused bytes do not count", |b| b.store[38..].fill(0));
    is_sound("nothing used", |b| b.state.used = 0);
}

#[test]
fn store_keys() {
    let set = |keys: &[Vec<u8>]| {
        let used = keys.concat();
        move |b: &mut Bench| b.set_used(&used)
    };
    let first = key(b"B7", (3, 2));
    is_sound("two dots", set(&[first.clone(), key(b"B7", (3, 7))]));
    is_sound(
        "one dot, two labels",
        set(&[first.clone(), key(b"B8", (3, 2))]),
    );
    is_damage("twice", set(&[first.clone(), first.clone()]));
    is_damage("order of labels", set(&[key(b"B8", (2, 1)), first.clone()]));
    is_damage("order of actors", set(&[first.clone(), key(b"B7", (2, 1))]));
    is_damage(
        "order of counters",
        set(&[first.clone(), key(b"B7", (3, 1))]),
    );
    is_damage("unseen", set(&[key(b"B7", (3, 5))]));
    is_damage("unseen own", set(&[key(b"B7", (2, 2))]));
    is_damage("counter 0", set(&[key(b"B7", (3, 0))]));
    is_damage("actor 0", set(&[key(b"B7", (0, 1))]));
    is_damage("no label", set(&[key(b"", (3, 1))]));
    is_damage("label of 33", set(&[key(&[b'x'; 33], (3, 1))]));
    is_damage("cut key", |b| b.state.used = 37);
    is_damage("left over", |b| b.state.used = 39);
    let clock_key = b"\x02\x01R1\x00c\x00\x03\x00".to_vec();
    is_damage("clock key", set(&[clock_key, first.clone()]));
    let mut other = first.clone();
    other[3] = b'2';
    is_damage("other set", set(&[other]));
    let mut shorter = first;
    shorter.remove(3);
    is_damage("other set, shorter name", set(&[shorter]));
}

#[test]
fn two_labels_under_one_dot_compact_together() {
    let mut bench = sound();
    bench.set_used(&[key(b"B7", (3, 2)), key(b"B8", (3, 2))].concat());
    bench.set_tombstone(&[(3, 1)]);
    let both = [entry(b"B7", &[(3, 2)]), entry(b"B8", &[(3, 2)])].concat();
    assert_eq!(bench.list(), (0, both, 2));
    assert_eq!(bench.remove(&[(3, 2)]).0, 0);
    assert_eq!(bench.compact(), 0);
    assert_eq!((bench.state.used, bench.state.count), (0, 0));
}
