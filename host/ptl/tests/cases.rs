//! The cases of the rules ("Both sides of the line") and the slips, through the safe wrapper.

use limits::{MESSAGE_MAX, PRINT_MAX, PRINT_MIN, STATE_SIZE, STORE_MAX, TOMBSTONE_SIZE};
use ptl::{
    read_key, read_message, write_key, Actor, Answer, Controller, Counter, Dot, Entry, Key, Label,
    Message, SetName, State,
};

fn r1() -> SetName {
    SetName::from("R1")
}

fn b7() -> Label {
    Label::from("B7")
}

fn dot(actor: u8, counter: u64) -> Dot {
    Dot::new(Actor(actor), Counter(counter))
}

fn dots(actor: u8, counters: std::ops::RangeInclusive<u64>) -> Vec<Dot> {
    counters.map(|counter| dot(actor, counter)).collect()
}

/// Bytes as the rules write them.
fn bytes(hex: &str) -> Vec<u8> {
    let pairs = hex.split_whitespace();
    pairs
        .map(|pair| u8::from_str_radix(pair, 16).expect("a pair of digits"))
        .collect()
}

fn with_store(actor: u8, length: usize) -> Controller {
    Controller::set_up(Actor(actor), &r1(), vec![0xEE; length]).expect("keeps the rules")
}

fn fresh(actor: u8) -> Controller {
    with_store(actor, 8192)
}

fn row(controller: &Controller, actor: u8) -> (u64, u64) {
    let state = controller.state();
    (state.base(Actor(actor)), state.window(Actor(actor)))
}

fn listed(controller: &Controller) -> Vec<Entry> {
    controller.list().expect("is sound").entries()
}

fn entry(label: &str, dots: &[Dot]) -> Entry {
    Entry {
        label: Label::from(label),
        dots: dots.to_vec(),
    }
}

/// The bytes of an add of set R1; nothing is checked.
fn add(label: &[u8], added: Dot, context: &[Dot]) -> Vec<u8> {
    let mut message = b"PTL\x00\x01a\x02R1".to_vec();
    message.push(label.len() as u8);
    message.extend(label);
    message.extend(added.to_bytes());
    message.push(context.len() as u8);
    message.extend(ptl::dots_to_bytes(context));
    message
}

/// The bytes of a remove of set R1; nothing is checked.
fn remove(context: &[Dot]) -> Vec<u8> {
    let mut message = b"PTL\x00\x01r\x02R1".to_vec();
    message.push(context.len() as u8);
    message.extend(ptl::dots_to_bytes(context));
    message
}

const A1: &str = "50 54 4C 00 01 61 02 52 31 02 42 37 01 00 00 00 00 00 00 00 01 00";

#[test]
fn k1() {
    let k1 = bytes("02 01 52 31 00 65 42 37 00 03 00 00 00 00 00 00 00 01 02");
    let key = Key::Label {
        name: r1(),
        label: b7(),
        dot: dot(3, 258),
    };
    assert_eq!(write_key(&key), Ok(k1.clone()));
    assert_eq!(read_key(&k1), Ok(key));
    assert_eq!(read_key(&k1[..18]), Err(Answer::BadShape));
}

#[test]
fn the_other_keys() {
    let keys = [
        (
            Key::Clock {
                name: r1(),
                actor: Actor(16),
            },
            "02 01 52 31 00 63 00 10 00",
        ),
        (
            Key::Tombstone {
                name: r1(),
                actor: Actor(1),
            },
            "02 01 52 31 00 64 00 01 00",
        ),
        (Key::End { name: r1() }, "02 01 52 31 00 7A 00 00"),
    ];
    for (key, hex) in keys {
        assert_eq!(write_key(&key), Ok(bytes(hex)));
        assert_eq!(read_key(&bytes(hex)), Ok(key));
    }
}

#[test]
fn keys_that_break_a_rule() {
    let key = |name: &str, actor, counter| Key::Label {
        name: SetName::from(name),
        label: b7(),
        dot: dot(actor, counter),
    };
    assert_eq!(write_key(&key("", 3, 1)), Err(Answer::BadName));
    assert_eq!(write_key(&key("R1", 0, 0)), Err(Answer::BadName));
    assert_eq!(write_key(&key("R1", 17, 1)), Err(Answer::BadName));
    assert_eq!(write_key(&key("R1", 3, 0)), Err(Answer::BadDot));
    let longest = Key::Label {
        name: SetName(vec![b'n'; 16]),
        label: Label(vec![b'x'; 32]),
        dot: dot(16, u64::MAX),
    };
    assert_eq!(write_key(&longest).map(|key| key.len()), Ok(63));
}

#[test]
fn m1() {
    let m1 = bytes("50 54 4C 00 01 72 02 52 31 01 03 00 00 00 00 00 00 01 02");
    let message = Message::Remove {
        name: r1(),
        context: vec![dot(3, 258)],
    };
    assert_eq!(read_message(&m1), Ok(message));
    assert_eq!(remove(&[dot(3, 258)]), m1);
}

#[test]
fn a1_and_a2() {
    let mut one = fresh(1);
    assert_eq!(one.own_add(&b7(), &[]), Ok(bytes(A1)));
    let listing = one.list().expect("is sound");
    let expected = bytes("02 42 37 00 01 01 00 00 00 00 00 00 00 01");
    assert_eq!((listing.bytes, listing.labels), (expected, 1));
    one.own_add(&b7(), &[dot(1, 1)]).expect("accepted");
    let state = one.state();
    assert_eq!((state.used(), state.tombstone()), (38, vec![dot(1, 1)]));
    assert_eq!(one.compact(), Ok(()));
    let state = one.state();
    assert_eq!((state.used(), state.tombstone()), (19, vec![]));
    assert_eq!(listed(&one), [entry("B7", &[dot(1, 2)])]);
    assert_eq!(one.store()[19..38], [0; 19]);
    assert_eq!(one.store()[38..], [0xEE; 8192 - 38]);
}

#[test]
fn r1_late_add() {
    let mut two = fresh(2);
    assert_eq!(two.take_in(&remove(&[dot(1, 1)])), Ok(()));
    assert_eq!(two.take_in(&bytes(A1)), Ok(()));
    assert_eq!((two.state().used(), listed(&two)), (0, vec![]));
}

/// R1's remove comes twice, and leaves a dot without a key until a compaction.
#[test]
fn r1_remove_twice() {
    let mut two = fresh(2);
    assert_eq!(two.take_in(&remove(&[dot(1, 1)])), Ok(()));
    assert_eq!(two.state().tombstone(), vec![]);
    assert_eq!(two.take_in(&remove(&[dot(1, 1)])), Ok(()));
    assert_eq!(two.state().tombstone(), vec![dot(1, 1)]);
    let before = two.clone();
    assert_eq!(two.compact(), Ok(()));
    assert_eq!(two.state().tombstone_room(), [0; TOMBSTONE_SIZE]);
    assert_eq!(two.state().count(), 0);
    assert_eq!(two.store(), before.store());
    assert_eq!(two.take_in(&bytes(A1)), Ok(()));
    assert_eq!((two.state().used(), listed(&two)), (0, vec![]));
}

#[test]
fn c1() {
    let mut one = fresh(1);
    one.own_add(&b7(), &[]).expect("accepted");
    assert_eq!(one.take_in(&add(b"B7", dot(2, 1), &[])), Ok(()));
    assert_eq!(listed(&one), [entry("B7", &[dot(1, 1), dot(2, 1)])]);
    assert_eq!(one.own_remove(&[dot(1, 1)]), Ok(remove(&[dot(1, 1)])));
    assert_eq!(listed(&one), [entry("B7", &[dot(2, 1)])]);
}

#[test]
fn w1_to_w3() {
    let mut one = fresh(1);
    assert_eq!(
        one.take_in(&add(b"B7", dot(3, 65), &[])),
        Err(Answer::TooFar)
    );
    assert_eq!(row(&one, 3), (0, 0));
    assert_eq!(one.take_in(&add(b"B7", dot(3, 64), &[])), Ok(()));
    assert_eq!(row(&one, 3), (0, 1 << 63));
    let mut one = fresh(1);
    assert_eq!(one.take_in(&add(b"B7", dot(3, 1), &[dot(3, 65)])), Ok(()));
    assert_eq!(row(&one, 3), (1, 1 << 63));
}

#[test]
fn w4() {
    let mut one = fresh(1);
    for first in [2, 18, 34, 50] {
        let last = (first + 15).min(64);
        assert_eq!(one.take_in(&remove(&dots(3, first..=last))), Ok(()));
    }
    assert_eq!(row(&one, 3), (0, !1));
    assert_eq!(one.take_in(&add(b"B7", dot(3, 1), &[])), Ok(()));
    assert_eq!(row(&one, 3), (64, 0));
}

#[test]
fn n1() {
    let mut one = fresh(1);
    one.own_add(&b7(), &[]).expect("accepted");
    let answer = one.take_in(&add(b"B7", dot(1, 2), &[]));
    assert_eq!(answer, Err(Answer::OwnAhead));
}

#[test]
fn o1() {
    let mut one = fresh(1);
    for label in ["B8", "B70", "B7"] {
        one.own_add(&Label::from(label), &[]).expect("accepted");
    }
    let places = ["B7", "B70", "B8"].map(|label| {
        let found = one.lookup(&Label::from(label)).expect("is sound");
        (found.start, found.keys.len(), found.listed)
    });
    assert_eq!(places, [(0, 19, true), (19, 20, true), (39, 19, true)]);
}

#[test]
fn labels_and_contexts_of_either_side() {
    let mut one = fresh(1);
    let label = |length| Label(vec![b'x'; length]);
    assert!(one.own_add(&label(32), &[]).is_ok());
    assert_eq!(one.own_add(&label(33), &[]), Err(Answer::BadName));
    assert_eq!(one.own_add(&label(0), &[]), Err(Answer::BadName));
    assert_eq!(one.lookup(&label(33)), Err(Answer::BadName));
    assert_eq!(one.own_remove(&dots(2, 1..=65)), Err(Answer::BadDot));
    let longest = one.own_add(&label(32), &dots(2, 1..=64));
    assert_eq!(
        longest.map(|message| message.len()),
        Ok(6 + 3 + 33 + 9 + 577)
    );
}

/// Each byte as the first, one between and the last of a label.
#[test]
fn labels_that_print() {
    for (byte, at) in (0..=255).flat_map(|byte| [0, 1, 2].map(|at| (byte, at))) {
        let mut label = b"B07".to_vec();
        label[at] = byte;
        let message = add(&label, dot(1, 1), &[]);
        let label = Label(label);
        let added = match byte {
            PRINT_MIN..=PRINT_MAX => None,
            _ => Some(Answer::BadName),
        };
        assert_eq!(fresh(1).own_add(&label, &[]).err(), added, "{label:?}");
        assert_eq!(read_message(&message).err(), added, "{label:?}");
        assert_eq!(fresh(2).take_in(&message).err(), added, "{label:?}");
        let kept = (byte == 0).then_some(Answer::BadName);
        assert_eq!(fresh(1).lookup(&label).err(), kept, "{label:?}");
        assert_eq!(fresh(1).page(&label, &mut []).err(), kept, "{label:?}");
    }
}

/// A label that an older version took: its key is that of B7 with another byte.
#[test]
fn an_older_label_is_listed_and_dropped() {
    let mut one = fresh(1);
    one.own_add(&b7(), &[]).expect("accepted");
    let (state, mut store) = one.into_parts();
    store[7] = 7;
    let mut one = Controller::of_parts(state, store);
    let bell = Label::from("B\x07");
    assert_eq!(listed(&one), [entry("B\x07", &[dot(1, 1)])]);
    assert_eq!(one.lookup(&bell).map(|found| found.listed), Ok(true));
    assert_eq!(one.own_add(&bell, &[dot(1, 1)]), Err(Answer::BadName));
    one.own_add(&b7(), &[dot(1, 1)]).expect("accepted");
    assert_eq!(one.compact(), Ok(()));
    assert_eq!(listed(&one), [entry("B7", &[dot(1, 2)])]);
}

#[test]
fn the_longest_message() {
    let name = SetName(vec![b'n'; 16]);
    let mut one = Controller::set_up(Actor(1), &name, vec![0; 100]).expect("keeps the rules");
    let message = one.own_add(&Label(vec![b'x'; 32]), &dots(2, 1..=64));
    assert_eq!(message.map(|message| message.len()), Ok(MESSAGE_MAX));
}

#[test]
fn version_2_with_unknown_kind() {
    let mut one = fresh(1);
    let message = bytes("50 54 4C 00 02 FF 02 52 31 00");
    assert_eq!(one.take_in(&message), Err(Answer::BadVersion));
    assert_eq!(read_message(&message), Err(Answer::BadVersion));
    let message = bytes("50 54 4C 00 01 FF 02 52 31 00");
    assert_eq!(one.take_in(&message), Err(Answer::BadShape));
}

#[test]
fn own_dots_in_an_own_context() {
    let mut one = fresh(1);
    one.own_add(&b7(), &[]).expect("accepted");
    assert_eq!(one.own_add(&b7(), &[dot(1, 2)]), Err(Answer::BadDot));
    assert_eq!(one.own_add(&b7(), &[dot(1, 3)]), Err(Answer::OwnAhead));
    assert_eq!(one.own_remove(&[dot(1, 2)]), Err(Answer::OwnAhead));
}

#[test]
fn a_store_that_is_full() {
    for length in [0, 18] {
        let mut one = with_store(1, length);
        assert_eq!(one.own_add(&b7(), &[]), Err(Answer::StoreFull));
    }
    let mut one = with_store(1, 19);
    assert!(one.own_add(&b7(), &[]).is_ok());
    assert_eq!(one.own_add(&b7(), &[]), Err(Answer::StoreFull));
    assert_eq!(listed(&one), [entry("B7", &[dot(1, 1)])]);
    assert_eq!(with_store(1, STORE_MAX).compact(), Ok(()));
    let mut longer = with_store(1, STORE_MAX + 1);
    assert_eq!(longer.compact(), Err(Answer::Damaged));
}

/// Labels A, B7 with two dots and C, in entries of 13, 23 and 13 bytes; B8 has a removed dot alone.
fn three_labels() -> Controller {
    let mut one = fresh(1);
    for label in ["B7", "C", "B8", "A", "B7"] {
        one.own_add(&Label::from(label), &[]).expect("accepted");
    }
    one.own_remove(&[dot(1, 3)]).expect("accepted");
    one
}

#[test]
fn pages_of_either_side() {
    let one = three_labels();
    let all = one.list().expect("is sound").bytes;
    let steps = [(13, 1), (35, 1), (36, 2), (48, 2), (49, 3), (60, 3)];
    for (room, labels) in steps {
        let mut out = vec![0xEE; room];
        let page = one.page(&Label::from(""), &mut out).expect("fits");
        assert_eq!((page.labels, page.more), (labels, labels < 3), "{room}");
        let written = page.bytes.len();
        assert_eq!(written, [0, 13, 36, 49][labels]);
        assert_eq!(out[..written], all[..written]);
        assert_eq!(out[written..], vec![0xEE; room - written]);
    }
    let refused = |start: &[u8], room: usize| {
        let mut out = vec![0xEE; room];
        let answer = one.page(&Label(start.to_vec()), &mut out).err();
        assert_eq!(out, vec![0xEE; room]);
        answer
    };
    assert_eq!(refused(b"", 12), Some(Answer::OutputShort));
    assert_eq!(refused(b"A", 22), Some(Answer::OutputShort));
    assert_eq!(refused(b"C", 0), None);
    assert_eq!(refused(&[b'x'; 32], 0), None);
    assert_eq!(refused(&[b'x'; 33], 0), Some(Answer::BadName));
    assert_eq!(refused(b"A\0", 60), Some(Answer::BadName));
}

#[test]
fn pages_start_after_any_label() {
    let one = three_labels();
    let starts = [("", 3), ("@", 3), ("A", 2), ("A0", 2), ("B7", 1)];
    for (start, labels) in starts.into_iter().chain([("B8", 1), ("C", 0), ("D", 0)]) {
        let mut out = [0; 60];
        let page = one.page(&Label::from(start), &mut out).expect("fits");
        let listed = listed(&one);
        assert_eq!(page.entries(), listed[3 - labels..], "{start}");
        assert_eq!((page.labels, page.more), (labels, false));
    }
}

/// A whole listing as docs/INTEGRATION.md says.
#[test]
fn pages_joined_are_the_listing() {
    let one = three_labels();
    let (mut joined, mut labels, mut pages) = (Vec::new(), 0, 0);
    let mut next = Some(Label::from(""));
    while let Some(start) = next {
        let mut out = [0; 23];
        let page = one.page(&start, &mut out).expect("fits");
        joined.extend(page.bytes);
        labels += page.labels;
        pages += 1;
        next = page.next_start();
    }
    let listing = one.list().expect("is sound");
    assert_eq!((joined, labels, pages), (listing.bytes, listing.labels, 3));
}

#[test]
fn a_page_speaks_of_the_state_that_it_finds() {
    let mut one = three_labels();
    let mut out = [0; 23];
    let first = one.page(&Label::from(""), &mut out).expect("fits");
    assert_eq!(first.next_start(), Some(Label::from("A")));
    one.own_remove(&[dot(1, 1), dot(1, 4), dot(1, 5)])
        .expect("accepted");
    one.own_add(&Label::from("0"), &[]).expect("accepted");
    let next = one.page(&Label::from("A"), &mut out).expect("fits");
    assert_eq!(next.entries(), [entry("C", &[dot(1, 2)])]);
    assert_eq!(next.next_start(), None);
}

/// Two racks that have not heard the same. Rack 1 added B7 and B8, rack 2 B7 and C; each took in
/// the other's last.
fn two_racks() -> [Controller; 2] {
    let (mut one, mut two) = (fresh(1), with_store(2, 300));
    one.own_add(&b7(), &[]).expect("accepted");
    let b8 = one.own_add(&Label::from("B8"), &[]).expect("accepted");
    two.own_add(&b7(), &[]).expect("accepted");
    let c = two.own_add(&Label::from("C"), &[]).expect("accepted");
    assert_eq!((one.take_in(&c), two.take_in(&b8)), (Ok(()), Ok(())));
    [one, two]
}

/// What two list together, asked either way.
fn merged(one: &Controller, two: &Controller) -> Vec<Entry> {
    let merged = one.merge(two).expect("both are sound");
    assert_eq!(two.merge(one), Ok(merged.clone()));
    let entries = merged.entries();
    assert_eq!(entries.len(), merged.labels);
    entries
}

#[test]
fn two_racks_list_together_what_neither_lists_alone() {
    let [one, two] = two_racks();
    let rest = [entry("B8", &[dot(1, 2)]), entry("C", &[dot(2, 2)])];
    let lists = |dots: &[Dot]| [&[entry("B7", dots)], &rest[..]].concat();
    assert_eq!(listed(&one), lists(&[dot(1, 1)]));
    assert_eq!(listed(&two), lists(&[dot(2, 1)]));
    assert_eq!(merged(&one, &two), lists(&[dot(1, 1), dot(2, 1)]));
    assert_eq!(merged(&one, &one), listed(&one));
    assert_eq!(merged(&one, &one.clone()), listed(&one));
}

/// A dot that one of them has seen and does not list stays away, compacted or not.
#[test]
fn what_one_rack_has_removed_is_not_listed_together() {
    let [mut one, mut two] = two_racks();
    two.own_remove(&[dot(1, 2)]).expect("accepted");
    one.own_remove(&[dot(2, 2)]).expect("accepted");
    let left = [entry("B7", &[dot(1, 1), dot(2, 1)])];
    assert_eq!(merged(&one, &two), left);
    assert_eq!((one.compact(), two.compact()), (Ok(()), Ok(())));
    assert_eq!((one.state().count(), two.state().count()), (0, 0));
    assert_eq!(merged(&one, &two), left);
    // Rack 2 hears of the remove before the add, and never stores the dot.
    assert_eq!(two.take_in(&remove(&[dot(1, 1)])), Ok(()));
    assert_eq!(merged(&one, &two), [entry("B7", &[dot(2, 1)])]);
}

#[test]
fn merged_reads_of_either_side() {
    let [one, two] = two_racks();
    let all = one.merge(&two).expect("both are sound").bytes;
    let read = |one: &Controller, two: &Controller, room: usize| {
        let before = [one.clone(), two.clone()];
        let mut out = vec![0xEE; room];
        let (states, stores) = ([one.state(), two.state()], [one.store(), two.store()]);
        let done = ptl::calls::merge(states[0], stores[0], states[1], stores[1], &mut out);
        assert_eq!([one, two], before.each_ref());
        assert_eq!(out[..done.written], all[..done.written]);
        assert_eq!(out[done.written..], vec![0xEE; room - done.written]);
        (done.answer, done.written, done.labels)
    };
    assert_eq!(all.len(), 50);
    assert_eq!(read(&one, &two, 49), (13, 0, 0));
    assert_eq!(read(&one, &two, 50), (0, 50, 3));
    assert_eq!(read(&one, &two, 51), (0, 50, 3));
    assert_eq!(read(&fresh(1), &fresh(2), 0), (0, 0, 0));
    // A name that goes on, and one that differs at its end; then the same with the store too long.
    for name in ["R", "R12", "R2"] {
        let other = Controller::set_up(Actor(2), &SetName::from(name), vec![]);
        let other = other.expect("keeps the rules");
        assert_eq!(read(&one, &other, 0), (7, 0, 0));
        assert_eq!(read(&other, &one, 60), (7, 0, 0));
        let (state, _) = other.into_parts();
        let long = Controller::of_parts(state, vec![0; STORE_MAX + 1]);
        assert_eq!(read(&one, &long, 0), (1, 0, 0));
        assert_eq!(read(&long, &one, 60), (1, 0, 0));
    }
}

/// A writer with two keys, of which one is removed, and a dot of actor 3 in its clock alone.
fn writer() -> Controller {
    let mut one = with_store(1, 100);
    assert!(one.own_add(&b7(), &[]).is_ok());
    assert!(one.own_add(&Label::from("B8"), &[dot(1, 1)]).is_ok());
    assert!(one.own_remove(&[dot(3, 2)]).is_ok());
    one
}

#[test]
fn an_image_is_loaded_as_another_actor() {
    let one = writer();
    let image = one.write_image().expect("is sound");
    let two = Controller::load_image(Actor(2), &image, vec![0xEE; 50]).expect("actor 2 is free");
    assert_eq!(two.store()[..38], one.store()[..38]);
    assert_eq!(two.store()[38..], [0xEE; 12]);
    let mut state = two.state().clone();
    state.set_actor(Actor(1));
    assert_eq!(&state, one.state());
    assert_eq!(listed(&two), listed(&one));
    let again = two.write_image().expect("is sound");
    let differ = (0..image.len()).filter(|at| image[*at] != again[*at]);
    let differ: Vec<usize> = differ.collect();
    assert!(differ[0] == 9 && differ[1..].iter().all(|at| *at >= image.len() - 4));
}

/// Own adds begin with 1 under the new actor; what the writer did since comes in as from any other.
#[test]
fn a_loaded_box_goes_on() {
    let mut one = writer();
    let image = one.write_image().expect("is sound");
    let later = one.own_add(&Label::from("C"), &[dot(1, 2)]);
    let mut two = Controller::load_image(Actor(2), &image, vec![0; 256]).expect("is free");
    let own = two.own_add(&Label::from("A"), &[]).expect("there is room");
    assert_eq!(own, add(b"A", dot(2, 1), &[]));
    assert!(two.take_in(&later.expect("there is room")).is_ok());
    assert!(one.take_in(&own).is_ok());
    assert_eq!(listed(&one), listed(&two));
    assert_eq!(
        listed(&one),
        [entry("A", &[dot(2, 1)]), entry("C", &[dot(1, 3)])]
    );
}

#[test]
fn loads_of_either_side() {
    let image = writer().write_image().expect("is sound");
    let load = |actor, image: &[u8], store| {
        let done = Controller::load_image(Actor(actor), image, vec![0; store]);
        done.err().unwrap_or(Answer::Done)
    };
    for (actor, answer) in [(2, Answer::Done), (16, Answer::Done)] {
        assert_eq!(load(actor, &image, 38), answer);
    }
    for actor in [0, 1, 3, 17] {
        assert_eq!(load(actor, &image, 38), Answer::ActorTaken, "{actor}");
    }
    assert_eq!(load(2, &image, 37), Answer::StoreFull);
    assert_eq!(load(2, &image, STORE_MAX + 1), Answer::Damaged);
    assert_eq!(load(2, b"PTX", 38), Answer::NoMark);
    assert_eq!(load(2, b"PTL\x00\x02", 38), Answer::BadVersion);
    assert_eq!(load(2, &image[1..], 38), Answer::NoMark);
    assert_eq!(load(2, &image[..image.len() - 1], 38), Answer::BadShape);
    for at in 6..image.len() {
        let mut changed = image.clone();
        changed[at] ^= 0x10;
        let refused = [Answer::BadShape, Answer::BadChecksum];
        assert!(refused.contains(&load(2, &changed, 38)), "{at}");
    }
}

/// A refused load leaves zeros in the state and the store as it was.
#[test]
fn a_refused_load_leaves_the_store() {
    let image = writer().write_image().expect("is sound");
    let (mut state, mut store) = fresh(5).into_parts();
    assert_eq!(
        ptl::calls::load_image(1, &image, &mut state, &mut store),
        15
    );
    assert_eq!((state, store), (State::zero(), vec![0xEE; 8192]));
}

#[test]
fn a_tombstone_that_is_full() {
    let mut one = fresh(1);
    for _ in 0..129 {
        one.own_add(&b7(), &[]).expect("accepted");
    }
    for first in [1, 65] {
        let context = dots(1, first..=first + 63);
        one.own_remove(&context).expect("accepted");
    }
    assert_eq!(one.state().count(), 128);
    let before = one.clone();
    assert_eq!(one.own_remove(&[dot(1, 129)]), Err(Answer::TombstoneFull));
    assert_eq!(one, before);
    assert_eq!(one.own_remove(&[dot(1, 7)]), Ok(remove(&[dot(1, 7)])));
    assert_eq!(one, before);
    assert_eq!(one.compact(), Ok(()));
    assert_eq!((one.state().count(), one.state().used()), (0, 19));
}

#[test]
fn other_sets_and_other_marks() {
    let mut one = fresh(1);
    let other = bytes("50 54 4C 00 01 72 02 52 32 00");
    assert_eq!(one.take_in(&other), Err(Answer::OtherSet));
    assert_eq!(one.take_in(&other[..4]), Err(Answer::NoMark));
    assert_eq!(one.take_in(b"PTM\0\x01"), Err(Answer::NoMark));
    assert_eq!(one.take_in(&[]), Err(Answer::NoMark));
}

#[test]
fn the_largest_counter() {
    let (mut state, store) = fresh(1).into_parts();
    assert!(state.set_base(Actor(1), u64::MAX));
    let mut one = Controller::of_parts(state, store);
    assert_eq!(one.own_add(&b7(), &[]), Err(Answer::CounterEnd));
    assert!(one.own_remove(&[dot(1, u64::MAX)]).is_ok());
}

#[test]
fn set_up_refused() {
    for (actor, name) in [
        (0, "R1"),
        (17, "R1"),
        (1, ""),
        (1, "R\0"),
        (1, "12345678901234567"),
    ] {
        let refused = Controller::set_up(Actor(actor), &SetName::from(name), vec![]);
        assert_eq!(refused, Err(Answer::BadName), "{actor} {name}");
    }
}

/// Slip 1: compaction has dropped the key, the clock remembers it.
#[test]
fn a_repeated_add_is_not_stored_again() {
    let mut two = fresh(2);
    assert_eq!(two.take_in(&bytes(A1)), Ok(()));
    two.own_remove(&[dot(1, 1)]).expect("accepted");
    assert_eq!(two.compact(), Ok(()));
    assert_eq!(two.take_in(&bytes(A1)), Ok(()));
    assert_eq!((two.state().used(), listed(&two)), (0, vec![]));
}

/// Slip 2: a context is just its dots.
#[test]
fn a_context_removes_no_lower_counters() {
    let mut one = fresh(1);
    one.own_add(&Label::from("A"), &[]).expect("accepted");
    one.own_add(&b7(), &[]).expect("accepted");
    one.own_remove(&[dot(1, 2)]).expect("accepted");
    assert_eq!(listed(&one), [entry("A", &[dot(1, 1)])]);
}

/// Slip 3: an unseen dot joins the clock, not the tombstone.
#[test]
fn an_unseen_dot_joins_the_clock() {
    let mut two = fresh(2);
    two.own_remove(&[dot(1, 1)]).expect("accepted");
    assert_eq!((row(&two, 1), two.state().count()), ((1, 0), 0));
}

#[test]
fn any_state_is_answered() {
    for fill in [0x00, 0x01, 0x7F, 0xFF] {
        let mut any = Controller::of_parts(State::of_block([fill; STATE_SIZE]), vec![fill; 300]);
        let before = any.clone();
        assert_eq!(any.own_add(&b7(), &[dot(0, 0)]), Err(Answer::Damaged));
        assert_eq!(any.own_remove(&[]), Err(Answer::Damaged));
        assert_eq!(any.take_in(&[fill; 300]), Err(Answer::Damaged));
        assert_eq!(any.list(), Err(Answer::Damaged));
        let mut out = [fill; 300];
        assert_eq!(any.page(&Label::from("\0"), &mut out), Err(Answer::Damaged));
        assert_eq!(out, [fill; 300]);
        assert_eq!(any.lookup(&b7()), Err(Answer::Damaged));
        assert_eq!(any.merge(&fresh(1)), Err(Answer::Damaged));
        assert_eq!(any.write_image(), Err(Answer::Damaged));
        assert_eq!(fresh(1).merge(&any), Err(Answer::Damaged));
        assert_eq!(any.compact(), Err(Answer::Damaged));
        assert_eq!(any, before);
    }
}
