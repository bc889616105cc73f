//! Blocks of calls on both sides of each rule, the same in every recording.

use crate::common::{add_message, dots, dots_of, key, remove_message, LARGEST};
use crate::recording::{Node, Recording, AMPLE};
use reference::limits::CONTEXT_DOTS_MAX;
use reference::{DAMAGED, STORE_FULL};

/// The most dots of a context.
const MOST: u64 = CONTEXT_DOTS_MAX as u64;

/// Lines that break the form: no command, a field too few, no number.
const BROKEN: [&str; 25] = [
    "x",
    "Compact",
    "setups 1 R1",
    "setup 1",
    "add B7 -",
    "remove -",
    "take",
    "page -",
    "merge @0 @1",
    "lookup",
    "image",
    "load",
    "load 3",
    "buffer 64",
    "setup x R1",
    "add B7 - 1x",
    "remove - -1",
    "list 007",
    "page B7 x",
    "merge 0 @1 64",
    "merge @0 @16 64",
    "image -",
    "load 256 -",
    "load 3 5g",
    "buffer 6F 0",
];

/// Contexts that a controller of actor 1 with three own adds refuses by 6 or 8.
const BAD_CONTEXTS: [&[(u8, u64)]; 9] = [
    &[(0, 1)],
    &[(17, 1)],
    &[(2, 0)],
    &[(2, 2), (2, 1)],
    &[(3, 1), (2, 1)],
    &[(2, 1), (2, 1)],
    &[(1, 4)],
    &[(1, 5)],
    &[(1, LARGEST)],
];

/// Bytes on both sides of those that print.
const SIDES: [u8; 6] = [0x1F, 0x20, 0x7E, 0x7F, 0x80, 0xFF];

/// Bytes of the message that `messages` starts from, and what is put in their place.
const FAULTS: [(usize, u8); 23] = [
    (0, b'Q'),
    (2, b'l'),
    (3, 1),
    (4, 2),
    (5, b'x'),
    (6, 0),
    (6, 255),
    (7, 0),
    (8, b'2'),
    (9, 0),
    (10, 0),
    (10, 0x7F),
    (11, 0x1F),
    (12, 0),
    (12, 17),
    (20, 0),
    (12, 1),
    (21, 2),
    (21, 0),
    (22, 2),
    (22, 0),
    (22, 17),
    (22, 1),
];

/// Keys to write, with the lengths of their outputs.
const KEYS: [&str; 16] = [
    "e R1 B7 3 258 19",
    "e R1 B7 3 258 18",
    "e R1 - 3 258 64",
    "e - B7 3 258 64",
    "e R%001 B7 3 258 64",
    "e R1 B%007 3 258 64",
    "e R1 B7 0 258 64",
    "e R1 B7 17 0 64",
    "e R1 B7 16 0 64",
    "c R1 - 16 0 9",
    "c R1 - 0 0 9",
    "c R1 - 1 0 8",
    "d ABCDEFGHIJKLMNOP B%007 1 7 23",
    "d ABCDEFGHIJKLMNOPQ - 1 7 64",
    "z %FF - 0 0 7",
    "z %FF B7 17 9 6",
];

/// Pokes that each damage a controller of actor 1 with two keys and a tombstone of one dot.
const DAMAGE: [&str; 18] = [
    "actor 0",
    "actor 17",
    "namelen 0",
    "namelen 1",
    "namelen 17",
    "name R2",
    "base 1 0",
    "base 2 0",
    "window 1 2",
    "window 2 1",
    "count 0",
    "count 2",
    "count 18446744073709551615",
    "dot 0 2 2",
    "dot 127 2 1",
    "used 37",
    "used 65",
    "byte 5 99",
];

/// Refused set-ups, each with a call after it, and the longest name.
pub fn set_ups(recording: &mut Recording) {
    let mut node = recording.start(0, 0, b"R1", 128);
    node.compact();
    node.show();
    for (actor, name) in [
        (17, &b"R1"[..]),
        (1, b""),
        (1, b"R\x001"),
        (16, b"ABCDEFGHIJKLMNOPQ"),
        (255, &[7; 256]),
        (16, b"ABCDEFGHIJKLMNOP"),
    ] {
        node.set_up(actor, name);
        node.list(64);
        node.show();
    }
    let sent = node.add(&[b'~'; 32], &dots(&dots_of(3, 1..=MOST)));
    node.take(&sent.written);
    node.lookup(&[b'~'; 32]);
}

/// Lines that break the form.
pub fn broken_lines(recording: &mut Recording) {
    let mut node = recording.start(1, 1, b"R1", 32);
    node.add(b"B7", b"");
    for line in BROKEN {
        node.say(line);
    }
    node.compact();
}

/// Labels, contexts and outputs of own calls and lookups.
pub fn own_calls(recording: &mut Recording) {
    let mut node = recording.start(2, 1, b"R1", 256);
    let labels: [&[u8]; 6] = [b"B7", b"", b"B\x007", &[66; 32], &[66; 33], b" "];
    for label in labels {
        node.add(label, b"");
        node.lookup(label);
    }
    node.lookup(b"B");
    node.lookup(b"B70");
    for context in BAD_CONTEXTS {
        node.add(b"B7", &dots(context));
        node.remove(&dots(context));
    }
    for count in [MOST + 1, MOST + 2, 255, 256, 600] {
        let context = dots(&dots_of(2, 1..=count));
        node.add(b"B7", &context);
        node.remove(&context);
    }
    outputs(&mut node);
}

/// Outputs one too short, long enough, longer.
fn outputs(node: &mut Node) {
    for count in [MOST, 0] {
        let context = dots(&dots_of(2, 1..=count));
        let (add, remove) = (context.len() + 21, context.len() + 10);
        let rooms = [(0, 0), (add - 1, remove - 1), (add, remove), (AMPLE, AMPLE)];
        for (add, remove) in rooms {
            node.remove_into(&context, remove);
            node.add_into(b" ", &context, add);
        }
    }
    let length = node.listing().len();
    for out in [0, length - 1, length] {
        node.list(out);
    }
}

/// Labels with each of these bytes first, between and last: added, in a message, and looked up.
pub fn labels(recording: &mut Recording) {
    let mut node = recording.start(2, 1, b"R1", 512);
    let all = SIDES
        .into_iter()
        .flat_map(|byte| [0, 1, 2].map(|at| (byte, at)));
    for (counter, (byte, at)) in (1..).zip(all) {
        let mut label = *b"B07";
        label[at] = byte;
        let message = add_message(b"R1", &label, (2, counter), &[]);
        node.add(&label, b"");
        node.read_message(&message);
        node.take(&message);
        node.lookup(&label);
    }
    node.list(AMPLE);
    node.add(&[b'B'; 32], b"");
    node.add(&[&[b'B'; 31][..], &[7]].concat(), b"");
    // Other refusals before and after this one.
    node.add(b"\x07", &dots(&[(1, 99)]));
    node.take(&add_message(b"R2", b"\x07", (2, 99), &[]));
    node.take(&add_message(b"R1", b"\x07", (0, 0), &[(0, 0)]));
    node.take(&[&add_message(b"R1", b"\x07", (2, 1), &[])[..], &[0]].concat());
}

/// A store that an older version filled: labels that do not print before and after one that does.
pub fn older_store(recording: &mut Recording) {
    let mut node = recording.start(3, 1, b"R1", 128);
    for label in [b"A7", b"B7", b"C7"] {
        node.add(label, b"");
    }
    // The first byte of the first label, and both of the last.
    for poke in ["byte 6 7", "byte 44 255", "byte 45 127"] {
        node.say(&format!("poke {poke}"));
    }
    node.list(AMPLE);
    for start in [&b""[..], b"\x077", b"B7", b"\xFF\x7F", b"\xFF"] {
        node.page(start, 14);
        node.lookup(start);
    }
    node.add(b"\x077", &dots(&[(1, 1)]));
    node.add(b"A7", &dots(&[(1, 1)]));
    node.take(&add_message(b"R1", b"\xFF\x7F", (2, 1), &[]));
    node.take(&remove_message(b"R1", &[(2, 1)]));
    node.take(&remove_message(b"R1", &[(1, 3)]));
    node.lookup(b"\xFF\x7F");
    node.list(AMPLE);
    node.compact();
    node.list(AMPLE);
}

/// Pages of labels with one, two and three dots and of one whose dot is removed.
pub fn pages(recording: &mut Recording) {
    let mut node = recording.start(3, 1, b"R1", 256);
    node.page(b"", 0);
    let labels: [&[u8]; 8] = [b"B8", b"B7", b"A", b"B7", b"C", b"A", b"B7", &[b'~'; 32]];
    for label in labels {
        node.add(label, b"");
    }
    node.remove(&dots(&[(1, 1)]));
    page_outputs(&mut node);
    between_pages(&mut node);
}

/// Outputs that end at each entry and next to it; starting labels on both sides of each label and of
/// their rule.
fn page_outputs(node: &mut Node) {
    for out in [0, 21, 22, 23, 53, 54, 66, 67, 110, 111, AMPLE] {
        node.page(b"", out);
    }
    let starts: [&[u8]; 14] = [
        b"\x01",
        b"@",
        b"A",
        b"A0",
        b"B6",
        b"B7",
        b"B70",
        b"B8",
        b"B9",
        b"C",
        &[b'}'; 32],
        &[b'~'; 31],
        &[b'~'; 32],
        &[255; 32],
    ];
    for start in starts {
        node.page(start, 13);
        node.page(start, AMPLE);
    }
    for start in [&[255; 33][..], &[7; 256], b"\x00", b"A\x00", b"B\x007"] {
        node.page(start, AMPLE);
        node.page(start, 0);
    }
}

/// Calls between the pages of a listing.
fn between_pages(node: &mut Node) {
    node.page(b"", 30);
    node.add(b"0", &dots(&[(1, 3)]));
    node.page(b"A", 40);
    node.remove(&dots(&dots_of(1, 2..=7)));
    node.page(b"B7", 44);
    node.compact();
    node.page(b"B7", 44);
    node.page(b"", 14);
    node.remove(&dots(&[(1, 8), (1, 9)]));
    node.page(b"", 0);
}

/// Two controllers that have not heard the same: dots of both, of one that the other has seen or not,
/// under one label and under several; removes on either side, before and after compactions.
pub fn merges(recording: &mut Recording) {
    let labels: [&[u8]; 5] = [b"A", b"B7", b"B7", b"C", &[255; 32]];
    let (mut sent, mut heard) = (Vec::new(), Vec::new());
    let mut node = recording.start(0, 1, b"R1", 256);
    for label in labels {
        sent.push(node.add(label, b"").written);
    }
    let mut other = recording.start(1, 2, b"R1", 512);
    other.merge(0, AMPLE);
    for label in &labels[1..] {
        heard.push(other.add(label, b"").written);
    }
    other.take(&sent[1]);
    other.take(&sent[4]);
    merge_outputs(recording);
    recording.node(0).take(&heard[2]);
    let steps: [(usize, &[(u8, u64)]); 4] = [
        (1, &[(1, 2), (2, 1)]),
        (0, &[(2, 3)]),
        (1, &[(1, 3), (1, 4)]),
        (0, &[(1, 1), (1, 5)]),
    ];
    for (at, context) in steps {
        recording.node(at).remove(&dots(context));
        merge_both_ways(recording, AMPLE);
        recording.node(at).compact();
        merge_both_ways(recording, AMPLE);
    }
    one_dot_two_labels(recording);
}

/// Outputs that end where the listing does and next to it; sets of other names; a controller with
/// itself.
fn merge_outputs(recording: &mut Recording) {
    let length = recording.node(0).merged_length(1);
    for out in [0, length - 1, length, length + 1] {
        merge_both_ways(recording, out);
    }
    recording.node(0).merge(0, AMPLE);
    for name in [&b"R"[..], b"R2", b"R12", b"R1"] {
        recording.start(2, 3, name, 64).merge(0, 0);
        recording.node(1).merge(2, AMPLE);
        recording.node(2).merge(2, 0);
    }
}

fn merge_both_ways(recording: &mut Recording, out: usize) {
    recording.node(0).merge(1, out);
    recording.node(1).merge(0, out);
}

/// Controllers of one actor, which gave one dot to two labels.
fn one_dot_two_labels(recording: &mut Recording) {
    for (at, label) in [(2, b"B7"), (3, b"B8")] {
        recording.start(at, 7, b"R1", 64).add(label, b"");
    }
    recording.node(2).merge(3, AMPLE);
    recording.node(3).add(b"B7", b"");
    recording.node(2).merge(3, AMPLE);
}

/// Windows of 64 events: their ends, a window that becomes full, the largest counter.
pub fn windows(recording: &mut Recording) {
    let mut node = recording.start(3, 2, b"R1", 256);
    for counter in [65, 64, LARGEST, LARGEST - 1] {
        node.remove(&dots(&[(3, counter)]));
        node.add(b"B7", &dots(&[(4, counter)]));
        node.take(&add_message(b"R1", b"B7", (5, counter), &[]));
    }
    node.take(&add_message(b"R1", b"B8", (3, 1), &[(3, 65)]));
    node.take(&add_message(b"R1", b"B8", (3, 66), &[(3, 66)]));
    node.take(&add_message(b"R1", b"B8", (3, 67), &[(3, 66)]));
    for from in [2, 18, 34, 50] {
        let context = dots_of(6, from..=64.min(from + 15));
        node.take(&remove_message(b"R1", &context));
    }
    node.take(&add_message(b"R1", b"B9", (6, 1), &[(1, 64), (6, 64)]));
    node.take(&add_message(b"R1", b"B9", (6, 66), &[(6, 65)]));
    node.take(&add_message(b"R1", b"B9", (6, 66), &[(6, 66)]));
    node.take(&add_message(b"R1", b"B9", (6, 66), &[(6, 67)]));
    node.list(AMPLE);
    node.compact();
}

/// Rows near the largest counter, the own one and another.
pub fn largest_counters(recording: &mut Recording) {
    let mut node = recording.start(0, 9, b"R1", 128);
    node.say(&format!("poke base 9 {}", LARGEST - 2));
    node.say(&format!("poke base 8 {}", LARGEST - 3));
    for _ in 0..3 {
        node.add(b"B7", b"");
    }
    node.add(b"B7", &dots(&[(9, LARGEST)]));
    node.remove(&dots(&[(9, LARGEST)]));
    for counter in [LARGEST, LARGEST - 1, LARGEST - 2, LARGEST] {
        node.take(&add_message(b"R1", b"B8", (8, counter), &[]));
        node.take(&remove_message(b"R1", &[(8, counter)]));
    }
    node.list(AMPLE);
    node.compact();
}

/// A store that is full, grows, or is too long.
pub fn stores(recording: &mut Recording) {
    let mut node = recording.start(1, 1, b"R1", 0);
    for length in [0, 18, 19, 37, 38] {
        node.lend(length);
        node.add(b"B7", b"");
        node.take(&add_message(b"R1", b"A1", (2, 1), &[]));
    }
    let sent = node.add(b"A1", &dots(&[(1, 1), (2, 1)]));
    assert_eq!(sent.answer, Some(STORE_FULL));
    node.remove(&dots(&[(1, 1), (2, 1)]));
    node.compact();
    node.add(b"A1", &dots(&[(1, 1), (2, 1)]));
    node.take(&add_message(b"R1", b"A1", (2, 1), &[]));
    for length in [65_536, 65_537, 70_000] {
        node.lend(length);
        node.list(70_000);
        node.lookup(b"B7");
        node.add(b"B7", b"");
        node.compact();
        node.say("buffer 57 9");
    }
    node.lend(18);
    node.list(AMPLE);
    node.compact();
}

/// A tombstone of 128 dots: one more is refused, one that is in it is not. A compaction empties it.
pub fn full_tombstone(recording: &mut Recording) {
    let mut node = recording.start(2, 7, b"R1", 64);
    for actor in [2, 3, 2, 3] {
        node.take(&remove_message(b"R1", &dots_of(actor, 1..=MOST)));
    }
    assert_eq!(node.state().count, 128);
    let sent = node.add(b"B7", &dots(&[(2, 5)])).written;
    let more = dots(&[(7, 1)]);
    node.add(b"B7", &more);
    node.remove(&more);
    node.take(&remove_message(b"R1", &[(7, 1)]));
    node.take(&add_message(b"R1", b"B7", (9, 1), &[(3, 64), (7, 1)]));
    node.remove(&dots(&dots_of(3, 1..=MOST)));
    node.take(&sent);
    node.compact();
    assert_eq!(node.state().count, 0);
    node.take(&add_message(b"R1", b"B8", (9, 1), &[(3, 64)]));
    node.remove(&dots(&[(9, 1)]));
    node.list(AMPLE);
}

/// Messages that break each rule, at their shortest and at their longest: read, and taken in.
pub fn messages(recording: &mut Recording) {
    let mut node = recording.start(3, 1, b"R1", 128);
    let good = add_message(b"R1", b"B7", (2, 1), &[(3, 1)]);
    let mut all: Vec<Vec<u8>> = Vec::new();
    for (at, byte) in FAULTS {
        let mut message = good.clone();
        message[at] = byte;
        all.push(message);
    }
    all.extend((0..=good.len()).map(|length| good[..length].to_vec()));
    all.push([&good[..], &[0]].concat());
    let lengths = [
        (2, 32, MOST),
        (2, 33, MOST),
        (17, 2, MOST),
        (2, 32, MOST + 1),
        (16, 32, MOST),
    ];
    for (name, label, count) in lengths {
        let context = dots_of(3, 1..=count);
        let name = &b"R1CDEFGHIJKLMNOPQ"[..name];
        all.push(add_message(name, &[b'B'; 33][..label], (4, 1), &context));
        all.push(remove_message(name, &context));
    }
    for message in all {
        node.read_message(&message);
        node.take(&message);
    }
}

/// Keys written; a label key with each byte changed in turn, cut off, and one byte longer.
pub fn keys(recording: &mut Recording) {
    let mut node = recording.start(0, 1, b"R1", 0);
    for fields in KEYS {
        let reply = node.say(&format!("key {fields}"));
        node.read_key(&reply.written);
    }
    let good = key(b"B7", (3, 258));
    for (at, byte) in good.iter().enumerate() {
        let mut changed = good.clone();
        changed[at] = byte ^ 1;
        node.read_key(&changed);
        node.read_key(&good[..at]);
    }
    node.read_key(&[&good[..], &[0]].concat());
}

/// Every call on a controller that is damaged in one place.
pub fn damage(recording: &mut Recording) {
    recording.start(0, 2, b"R1", 64).add(b"B7", b"");
    recording.start(2, 3, b"R2", 64);
    for poke in DAMAGE {
        let mut node = recording.start(1, 1, b"R1", 64);
        node.add(b"B7", b"");
        node.take(&add_message(b"R1", b"B8", (2, 1), &[]));
        node.remove(&dots(&[(2, 1)]));
        node.say(&format!("poke {poke}"));
        node.add(b"B7", b"");
        node.remove(b"");
        node.take(&remove_message(b"R1", &[]));
        node.list(AMPLE);
        node.page(b"", AMPLE);
        node.page(b"\x00", 0);
        node.lookup(b"B7");
        node.merge(0, AMPLE);
        node.say("merge @2 @1 0");
        node.image(AMPLE);
        let last = node.say("compact");
        assert_eq!(last.answer, Some(DAMAGED), "{poke}");
    }
}
