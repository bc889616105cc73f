//! The cases of the rules ("Both sides of the line") and the slips, on every form of the baseline.

use baseline::*;
use limits::{
    ACTOR_MAX, CRC_SIZE, DOT_SIZE, IMAGE_FIXED, KEY_MAX, MESSAGE_MAX, NUMBER_SIZE, PRINT_MAX,
    PRINT_MIN, ROW_SIZE, STATE_ACTOR_AT, STATE_CLOCK_AT, STATE_COUNT_AT, STATE_NAME_AT, STATE_SIZE,
    STATE_TOMBSTONE_AT, STATE_USED_AT, STORE_MAX,
};
use std::fmt::Debug;
use std::marker::PhantomData;

/// A form of the baseline, with what a test wants of it beside.
trait Form: Calls + Clone + PartialEq + Debug {}
impl Form for Plain {}
impl Form for Tuned {}
impl Form for Fastest {}

/// Runs the cases that depend on the form, for each.
macro_rules! for_each_form {
    ($($case:ident)*) => {
        mod plain {
            $(#[test] fn $case() { super::$case::<baseline::Plain>(); })*
        }
        mod tuned {
            $(#[test] fn $case() { super::$case::<baseline::Tuned>(); })*
        }
        mod fastest {
            $(#[test] fn $case() { super::$case::<baseline::Fastest>(); })*
        }
    };
}

for_each_form! {
    a1_and_a2
    r1_late_add
    c1
    w1_to_w3
    w4
    n1
    o1
    labels_and_contexts_of_either_side
    labels_that_print
    an_older_label_is_listed_and_dropped
    messages_that_are_none
    own_dots_to_come
    a_store_that_is_full
    an_output_that_is_short
    pages_of_either_side
    pages_start_after_any_label
    a_dead_label_on_a_page
    merged_reads_of_two_racks
    merged_reads_of_either_side
    an_image_byte_by_byte
    an_image_loaded_and_written_again
    images_that_are_none
    images_whose_contents_break_a_rule
    stores_and_actors_of_a_load
    a_tombstone_that_is_full
    a_tombstone_of_dots_without_keys
    slips
    damage_is_answered_1_by_every_call
}

/// What lent bytes hold that no call has written.
const FILL: u8 = 0xA5;
const B7: &[u8] = b"B7";

/// A controller of set "R1" and its lent store.
#[derive(Clone, PartialEq, Eq, Debug)]
struct Rack<F> {
    block: Block,
    store: Vec<u8>,
    form: PhantomData<F>,
}

impl<F: Form> Rack<F> {
    fn with_store(actor: u8, length: usize) -> Rack<F> {
        let mut block = [FILL; STATE_SIZE];
        assert_eq!(set_up(actor, b"R1", &mut block), 0);
        let store = vec![FILL; length];
        let form = PhantomData;
        Rack { block, store, form }
    }

    fn new(actor: u8) -> Rack<F> {
        Rack::with_store(actor, 8192)
    }

    /// Own add; its answer and message.
    fn add(&mut self, label: &[u8], context: &[(u8, u64)]) -> (u8, Vec<u8>) {
        let (before, mut out) = (self.clone(), vec![FILL; MESSAGE_MAX + 40]);
        let wrote = F::own_add(
            &mut self.block,
            &mut self.store,
            label,
            &dots(context),
            &mut out,
        );
        self.written(&before, wrote, out)
    }

    /// Own remove; its answer and message.
    fn remove(&mut self, context: &[(u8, u64)]) -> (u8, Vec<u8>) {
        let (before, mut out) = (self.clone(), vec![FILL; MESSAGE_MAX + 40]);
        let wrote = F::own_remove(&mut self.block, &self.store, &dots(context), &mut out);
        self.written(&before, wrote, out)
    }

    /// What was written; a refusal has changed nothing.
    fn written(&self, before: &Rack<F>, wrote: Wrote, mut out: Vec<u8>) -> (u8, Vec<u8>) {
        assert!(out[wrote.written..].iter().all(|byte| *byte == FILL));
        if wrote.answer != 0 {
            assert_eq!((self, wrote.written), (before, 0));
        }
        out.truncate(wrote.written);
        (wrote.answer, out)
    }

    fn take(&mut self, message: &[u8]) -> u8 {
        let before = self.clone();
        let answer = F::take_in(&mut self.block, &mut self.store, message);
        assert!(answer == 0 || *self == before);
        answer
    }

    fn compact(&mut self) -> u8 {
        F::compact(&mut self.block, &mut self.store)
    }

    /// The listing's bytes and its number of labels.
    fn list(&self) -> (Vec<u8>, usize) {
        let mut out = vec![FILL; self.store.len()];
        let listed = F::list(&self.block, &self.store, &mut out);
        assert_eq!(listed.answer, 0);
        out.truncate(listed.written);
        (out, listed.labels)
    }

    /// Merged read: its answer, bytes and number of labels. Which is first makes no difference.
    fn merge(&self, other: &Rack<F>, room: usize) -> (u8, Vec<u8>, usize) {
        let [one, two] = [[self, other], [other, self]].map(|[first, second]| {
            let mut out = vec![FILL; room];
            let (block, store) = (&first.block, &first.store);
            let listed = F::merge(block, store, &second.block, &second.store, &mut out);
            assert!(out[listed.written..].iter().all(|byte| *byte == FILL));
            out.truncate(listed.written);
            (listed.answer, out, listed.labels)
        });
        assert_eq!(one, two);
        one
    }

    /// A page: its answer, bytes, number of labels, and whether more follow.
    fn page(&self, start: &[u8], room: usize) -> (u8, Vec<u8>, usize, bool) {
        let mut out = vec![FILL; room];
        let paged = F::page(&self.block, &self.store, start, &mut out);
        assert!(out[paged.written..].iter().all(|byte| *byte == FILL));
        out.truncate(paged.written);
        (paged.answer, out, paged.labels, paged.more)
    }

    fn lookup(&self, label: &[u8]) -> Looked {
        F::lookup(&self.block, &self.store, label)
    }

    /// An image in an output of this length; its answer and bytes.
    fn image(&self, room: usize) -> (u8, Vec<u8>) {
        let mut out = vec![FILL; room];
        let wrote = F::write_image(&self.block, &self.store, &mut out);
        self.written(self, wrote, out)
    }

    /// Loads an image. Refused, it leaves zeros and the store as it was; else the store past the
    /// keys.
    fn load(&mut self, actor: u8, image: &[u8]) -> u8 {
        let before = self.store.clone();
        let answer = F::load_image(actor, image, &mut self.block, &mut self.store);
        let used = self.sizes().1 as usize;
        assert_eq!(self.store[used..], before[used..]);
        assert!(answer == 0 || self.block == [0; STATE_SIZE]);
        answer
    }

    fn number(&self, at: usize) -> u64 {
        let bytes = self.block[at..at + NUMBER_SIZE]
            .try_into()
            .expect("eight bytes");
        u64::from_be_bytes(bytes)
    }

    fn set_number(&mut self, at: usize, number: u64) {
        self.block[at..at + NUMBER_SIZE].copy_from_slice(&number.to_be_bytes());
    }

    fn row(&self, actor: usize) -> (u64, u64) {
        let at = STATE_CLOCK_AT + ROW_SIZE * (actor - 1);
        (self.number(at), self.number(at + NUMBER_SIZE))
    }

    /// Dots in the tombstone, and used bytes.
    fn sizes(&self) -> (u64, u64) {
        (self.number(STATE_COUNT_AT), self.number(STATE_USED_AT))
    }

    fn tombstone(&self) -> &[u8] {
        let length = DOT_SIZE * self.number(STATE_COUNT_AT) as usize;
        &self.block[STATE_TOMBSTONE_AT..STATE_TOMBSTONE_AT + length]
    }
}

/// Nine bytes a dot.
fn dots(list: &[(u8, u64)]) -> Vec<u8> {
    let bytes = |(actor, counter): &(u8, u64)| {
        let mut nine = vec![*actor];
        nine.extend(counter.to_be_bytes());
        nine
    };
    list.iter().flat_map(bytes).collect()
}

/// Dots of one actor.
fn dots_of(actor: u8, counters: std::ops::RangeInclusive<u64>) -> Vec<(u8, u64)> {
    counters.map(|counter| (actor, counter)).collect()
}

/// The bytes of an add of set R1; nothing is checked.
fn add_bytes(label: &[u8], dot: (u8, u64), context: &[(u8, u64)]) -> Vec<u8> {
    let mut message = b"PTL\x00\x01a\x02R1".to_vec();
    message.push(label.len() as u8);
    message.extend(label);
    message.extend(dots(&[dot]));
    message.push(context.len() as u8);
    message.extend(dots(context));
    message
}

/// The bytes of a remove of set R1; nothing is checked.
fn remove_bytes(context: &[(u8, u64)]) -> Vec<u8> {
    let mut message = b"PTL\x00\x01r\x02R1".to_vec();
    message.push(context.len() as u8);
    message.extend(dots(context));
    message
}

/// Bytes as the rules write them.
fn bytes(hex: &str) -> Vec<u8> {
    let pairs = hex.split_whitespace();
    pairs
        .map(|pair| u8::from_str_radix(pair, 16).expect("a pair of digits"))
        .collect()
}

/// The entry of a listing.
fn entry(label: &[u8], of: &[(u8, u64)]) -> Vec<u8> {
    let front = [&[label.len() as u8], label, &[0, of.len() as u8]].concat();
    [front, dots(of)].concat()
}

const K1: &str = "02 01 52 31 00 65 42 37 00 03 00 00 00 00 00 00 00 01 02";
const M1: &str = "50 54 4C 00 01 72 02 52 31 01 03 00 00 00 00 00 00 01 02";
const A1: &str = "50 54 4C 00 01 61 02 52 31 02 42 37 01 00 00 00 00 00 00 00 01 00";

#[test]
fn k1() {
    let mut out = [FILL; 20];
    let wrote = write_key(b'e', b"R1", B7, 3, 258, &mut out);
    assert_eq!((wrote.answer, wrote.written), (0, 19));
    assert_eq!((&out[..19], out[19]), (bytes(K1).as_slice(), FILL));
    let read = read_key(&bytes(K1));
    assert_eq!((read.answer, read.kind), (0, b'e'));
    assert_eq!((read.name_at, read.name_len), (2, 2));
    assert_eq!((read.label_at, read.label_len), (6, 2));
    assert_eq!((read.actor, read.counter), (3, 258));
    assert_eq!(read_key(&bytes(K1)[..18]).answer, 4);
    assert_eq!(
        write_key(b'e', b"R1", B7, 3, 258, &mut out[..18]).answer,
        13
    );
}

#[test]
fn keys_of_the_other_types() {
    let keys = [
        (b'c', 16, "02 01 52 31 00 63 00 10 00"),
        (b'd', 1, "02 01 52 31 00 64 00 01 00"),
        (b'z', 0, "02 01 52 31 00 7A 00 00"),
    ];
    for (kind, actor, hex) in keys {
        let mut out = [FILL; 20];
        let wrote = write_key(kind, b"R1", &[], actor, 0, &mut out);
        assert_eq!(wrote.answer, 0);
        assert_eq!(out[..wrote.written], bytes(hex));
        let read = read_key(&bytes(hex));
        assert_eq!((read.answer, read.kind, read.actor), (0, kind, actor));
        assert_eq!((read.label_at, read.label_len, read.counter), (0, 0, 0));
    }
    let answer = |kind, name, actor, counter| {
        let mut out = [FILL; KEY_MAX];
        write_key(kind, name, B7, actor, counter, &mut out).answer
    };
    assert_eq!(answer(b'x', b"", 0, 0), 4);
    assert_eq!(answer(b'e', b"", 3, 1), 5);
    assert_eq!(answer(b'e', b"R1", 0, 0), 5);
    assert_eq!(answer(b'e', b"R1", 3, 0), 6);
    assert_eq!(answer(b'z', b"R1", 99, 0), 0);
}

#[test]
fn m1() {
    assert_eq!(remove_bytes(&[(3, 258)]), bytes(M1));
    let read = read_message(&bytes(M1));
    assert_eq!((read.answer, read.kind), (0, b'r'));
    assert_eq!((read.name_at, read.name_len), (7, 2));
    assert_eq!((read.context_at, read.context_len), (10, 9));
}

fn a1_and_a2<F: Form>() {
    let mut one = Rack::<F>::new(1);
    assert_eq!(one.add(B7, &[]), (0, bytes(A1)));
    let listing = bytes("02 42 37 00 01 01 00 00 00 00 00 00 00 01");
    assert_eq!(one.list(), (listing, 1));
    assert_eq!(
        one.add(B7, &[(1, 1)]),
        (0, add_bytes(B7, (1, 2), &[(1, 1)]))
    );
    assert_eq!(one.sizes(), (1, 38));
    assert_eq!(one.tombstone(), dots(&[(1, 1)]));
    assert_eq!((one.compact(), one.sizes()), (0, (0, 19)));
    assert_eq!(one.list(), (entry(B7, &[(1, 2)]), 1));
    assert!(one.store[19..38].iter().all(|byte| *byte == 0));
    assert!(one.store[38..].iter().all(|byte| *byte == FILL));
}

fn r1_late_add<F: Form>() {
    let mut two = Rack::<F>::new(2);
    assert_eq!(two.take(&remove_bytes(&[(1, 1)])), 0);
    assert_eq!((two.row(1), two.sizes()), ((1, 0), (0, 0)));
    assert_eq!(two.take(&bytes(A1)), 0);
    assert_eq!((two.sizes(), two.list()), ((0, 0), (vec![], 0)));
}

fn c1<F: Form>() {
    let mut one = Rack::<F>::new(1);
    one.add(B7, &[]);
    assert_eq!(one.take(&add_bytes(B7, (2, 1), &[])), 0);
    assert_eq!(one.remove(&[(1, 1)]), (0, remove_bytes(&[(1, 1)])));
    assert_eq!(one.list(), (entry(B7, &[(2, 1)]), 1));
    let found = one.lookup(B7);
    assert_eq!((found.at, found.len, found.listed), (0, 38, true));
}

fn w1_to_w3<F: Form>() {
    let mut one = Rack::<F>::new(1);
    assert_eq!(one.take(&add_bytes(B7, (3, 65), &[])), 10);
    assert_eq!(one.take(&add_bytes(B7, (3, 64), &[])), 0);
    assert_eq!(one.row(3), (0, 1 << 63));
    let mut one = Rack::<F>::new(1);
    assert_eq!(one.take(&add_bytes(B7, (3, 1), &[(3, 65)])), 0);
    assert_eq!(one.row(3), (1, 1 << 63));
}

fn w4<F: Form>() {
    let mut one = Rack::<F>::new(1);
    for event in 2..=64 {
        assert_eq!(one.take(&add_bytes(B7, (3, event), &[])), 0);
    }
    assert_eq!(one.row(3), (0, !1));
    assert_eq!(one.take(&add_bytes(B7, (3, 1), &[])), 0);
    assert_eq!(one.row(3), (64, 0));
}

fn n1<F: Form>() {
    let mut one = Rack::<F>::new(1);
    one.add(B7, &[]);
    assert_eq!(one.take(&add_bytes(B7, (1, 2), &[])), 8);
    assert_eq!(one.take(&add_bytes(B7, (1, 1), &[])), 0);
}

fn o1<F: Form>() {
    let mut one = Rack::<F>::new(1);
    for label in [b"B8".as_slice(), b"B70", b"B7"] {
        assert_eq!(one.add(label, &[]).0, 0);
    }
    let places = [b"B7".as_slice(), b"B70", b"B8"].map(|label| {
        let found = one.lookup(label);
        (found.at, found.len)
    });
    assert_eq!(places, [(0, 19), (19, 20), (39, 19)]);
    let none = one.lookup(b"B71");
    assert_eq!(
        (none.answer, none.at, none.len, none.listed),
        (0, 39, 0, false)
    );
}

fn labels_and_contexts_of_either_side<F: Form>() {
    let mut one = Rack::<F>::new(1);
    assert_eq!(one.add(&[b'x'; 32], &[]).0, 0);
    assert_eq!(one.add(&[b'x'; 33], &[]).0, 5);
    assert_eq!(one.lookup(&[b'x'; 33]).answer, 5);
    assert_eq!(one.take(&add_bytes(&[b'x'; 33], (2, 1), &[])), 5);
    assert_eq!(one.remove(&dots_of(2, 1..=65)).0, 6);
    assert_eq!(one.add(B7, &dots_of(2, 1..=64)).0, 0);
    assert_eq!(one.row(2), (64, 0));
}

/// Each byte as the first, one between and the last of a label.
fn labels_that_print<F: Form>() {
    for (byte, at) in (0..=255).flat_map(|byte| [0, 1, 2].map(|at| (byte, at))) {
        let mut label = *b"B07";
        label[at] = byte;
        let added = if (PRINT_MIN..=PRINT_MAX).contains(&byte) {
            0
        } else {
            5
        };
        let message = add_bytes(&label, (1, 1), &[]);
        assert_eq!(Rack::<F>::new(1).add(&label, &[]).0, added, "{label:?}");
        assert_eq!(read_message(&message).answer, added, "{label:?}");
        assert_eq!(Rack::<F>::new(2).take(&message), added, "{label:?}");
        let kept = if byte == 0 { 5 } else { 0 };
        assert_eq!(Rack::<F>::new(1).lookup(&label).answer, kept, "{label:?}");
        assert_eq!(Rack::<F>::new(1).page(&label, 0).0, kept, "{label:?}");
    }
}

/// A label that an older version took: its key is that of B7 with another byte.
fn an_older_label_is_listed_and_dropped<F: Form>() {
    let mut one = Rack::<F>::new(1);
    one.add(B7, &[]);
    one.store[7] = 7;
    assert_eq!(one.list(), (entry(b"B\x07", &[(1, 1)]), 1));
    assert!(one.lookup(b"B\x07").listed && !one.lookup(B7).listed);
    assert_eq!(one.add(b"B\x07", &[(1, 1)]).0, 5);
    assert_eq!(one.add(B7, &[(1, 1)]).0, 0);
    assert_eq!(one.compact(), 0);
    assert_eq!(one.list(), (entry(B7, &[(1, 2)]), 1));
}

fn messages_that_are_none<F: Form>() {
    let mut one = Rack::<F>::new(1);
    assert_eq!(one.take(b"PTL\x00\x02q"), 3);
    assert_eq!(one.take(b"PTL\x00\x01q"), 4);
    assert_eq!(one.take(b"PTL\x00\x01"), 4);
    assert_eq!(one.take(b"PTL\x00"), 2);
    assert_eq!(one.take(b"PTM\x00\x01"), 2);
    assert_eq!(one.take(b"PTL\x00\x01r\x02R2\x00"), 7);
    assert_eq!(one.take(b"PTL\x00\x01r\x02R1\x00"), 0);
    assert_eq!(one, Rack::<F>::new(1));
}

fn own_dots_to_come<F: Form>() {
    let mut one = Rack::<F>::new(1);
    one.add(B7, &[]);
    assert_eq!(one.add(B7, &[(1, 2)]).0, 6);
    assert_eq!(one.add(B7, &[(1, 3)]).0, 8);
    assert_eq!(one.remove(&[(1, 2)]).0, 8);
    one.set_number(STATE_CLOCK_AT, u64::MAX);
    assert_eq!(one.add(B7, &[]).0, 9);
    assert_eq!(one.remove(&[(1, u64::MAX)]).0, 0);
}

fn a_store_that_is_full<F: Form>() {
    assert_eq!(Rack::<F>::with_store(1, 0).add(B7, &[]).0, 12);
    assert_eq!(Rack::<F>::with_store(1, 18).add(B7, &[]).0, 12);
    let mut one = Rack::<F>::with_store(1, 19);
    assert_eq!(one.add(B7, &[]).0, 0);
    assert_eq!(one.add(B7, &[]).0, 12);
    assert_eq!(Rack::<F>::with_store(1, STORE_MAX).compact(), 0);
    assert_eq!(Rack::<F>::with_store(1, STORE_MAX + 1).compact(), 1);
}

fn an_output_that_is_short<F: Form>() {
    let mut one = Rack::<F>::new(1);
    let before = one.clone();
    let mut out = [FILL; 21];
    let wrote = F::own_add(&mut one.block, &mut one.store, B7, &[], &mut out);
    assert_eq!((wrote.answer, wrote.written), (13, 0));
    assert_eq!((&one, out), (&before, [FILL; 21]));
    one.add(B7, &[]);
    for room in [13, 14] {
        let mut out = [FILL; 14];
        let listed = F::list(&one.block, &one.store, &mut out[..room]);
        assert_eq!(listed.answer, if room < 14 { 13 } else { 0 });
        assert_eq!(out == [FILL; 14], room < 14);
    }
}

/// What a refused page gives beside its answer.
fn refused(answer: u8) -> (u8, Vec<u8>, usize, bool) {
    (answer, vec![], 0, false)
}

/// Labels A, B7 with two dots and C, and B8 with a removed dot alone; the entries of the three.
fn three_labels<F: Form>() -> (Rack<F>, [Vec<u8>; 3]) {
    let mut one = Rack::<F>::new(1);
    for label in [B7, b"C", b"B8", b"A", B7] {
        assert_eq!(one.add(label, &[]).0, 0);
    }
    assert_eq!(one.remove(&[(1, 3)]).0, 0);
    let b7 = entry(B7, &[(1, 1), (1, 5)]);
    let entries = [entry(b"A", &[(1, 4)]), b7, entry(b"C", &[(1, 2)])];
    (one, entries)
}

fn pages_of_either_side<F: Form>() {
    let (one, entries) = three_labels::<F>();
    for (room, labels) in [(13, 1), (35, 1), (36, 2), (48, 2), (49, 3), (99, 3)] {
        let bytes = entries[..labels].concat();
        assert_eq!(one.page(b"", room), (0, bytes, labels, labels < 3));
    }
    assert_eq!(
        [one.page(b"", 12), one.page(b"A", 22)],
        [13, 13].map(refused)
    );
    assert_eq!(one.page(&[b'x'; 33], 0), refused(5));
    assert_eq!(one.page(b"A\0", 99), refused(5));
    assert_eq!(one.page(&[b'x'; 32], 0), (0, vec![], 0, false));
    assert_eq!(Rack::<F>::new(1).page(b"", 0), (0, vec![], 0, false));
}

fn pages_start_after_any_label<F: Form>() {
    let (one, entries) = three_labels::<F>();
    let starts: [(&[u8], usize); 7] = [
        (b"", 0),
        (b"@", 0),
        (b"A", 1),
        (b"B", 1),
        (B7, 2),
        (b"B8", 2),
        (b"C", 3),
    ];
    for (start, from) in starts {
        let bytes = entries[from..].concat();
        assert_eq!(one.page(start, 99), (0, bytes, 3 - from, false));
    }
}

/// A label whose dots are all removed takes no room.
fn a_dead_label_on_a_page<F: Form>() {
    let (mut one, entries) = three_labels::<F>();
    assert_eq!(one.remove(&[(1, 2)]).0, 0);
    assert_eq!(one.page(B7, 0), (0, vec![], 0, false));
    assert_eq!(one.page(b"", 36), (0, entries[..2].concat(), 2, false));
}

/// Rack 1 added B7 and B8, rack 2 B7 and C; each took in the other's last.
fn two_racks<F: Form>() -> [Rack<F>; 2] {
    let (mut one, mut two) = (Rack::<F>::new(1), Rack::<F>::with_store(2, 300));
    assert_eq!((one.add(B7, &[]).0, two.add(B7, &[]).0), (0, 0));
    assert_eq!(two.take(&one.add(b"B8", &[]).1), 0);
    assert_eq!(one.take(&two.add(b"C", &[]).1), 0);
    [one, two]
}

/// What one rack has not heard of is kept; what it has seen and does not list is not.
fn merged_reads_of_two_racks<F: Form>() {
    let [mut one, mut two] = two_racks::<F>();
    let b7 = entry(B7, &[(1, 1), (2, 1)]);
    let (b8, c) = (entry(b"B8", &[(1, 2)]), entry(b"C", &[(2, 2)]));
    assert_eq!(one.merge(&two, 99), (0, [&b7[..], &b8, &c].concat(), 3));
    assert_eq!(two.remove(&[(1, 2)]).0, 0);
    assert_eq!(one.merge(&two, 99), (0, [&b7[..], &c].concat(), 2));
    assert_eq!(two.compact(), 0);
    assert_eq!(one.merge(&two, 99), (0, [&b7[..], &c].concat(), 2));
    assert_eq!(one.remove(&[(2, 1), (2, 2)]).0, 0);
    assert_eq!(one.merge(&two, 99), (0, entry(B7, &[(1, 1)]), 1));
    for rack in [&one, &two, &Rack::new(3)] {
        let (bytes, labels) = rack.list();
        assert_eq!(rack.merge(rack, 99), (0, bytes, labels));
    }
}

fn merged_reads_of_either_side<F: Form>() {
    let [one, two] = two_racks::<F>();
    let refused = |answer| (answer, vec![], 0);
    assert_eq!(one.merge(&two, 49), refused(13));
    assert_eq!(one.merge(&two, 50).0, 0);
    let mut other = Rack::<F>::new(2);
    assert_eq!(set_up(2, b"R2", &mut other.block), 0);
    assert_eq!(one.merge(&other, 0), refused(7));
    other.store.resize(STORE_MAX + 1, 0);
    assert_eq!(one.merge(&other, 0), refused(1));
    assert_eq!(Rack::<F>::new(1).merge(&Rack::new(2), 0), refused(0));
}

/// The bytes with their CRC after them.
fn with_crc(bytes: &[u8]) -> Vec<u8> {
    [bytes, &crc32(bytes).to_be_bytes()].concat()
}

#[test]
fn crc_of_the_documents_text_and_of_every_byte() {
    assert_eq!(crc32(b"123456789"), 0xCBF4_3926);
    assert_eq!(crc32(b""), 0);
    let every_byte: Vec<u8> = (0..=255).collect();
    assert_eq!(crc32(&every_byte), 0x2905_8C73);
}

/// The image of case A1's controller before its CRC.
fn a1_image() -> Vec<u8> {
    let head = bytes("50 54 4C 00 01 69 02 52 31 01");
    let row = bytes("00 00 00 00 00 00 00 01");
    let key = bytes("02 01 52 31 00 65 42 37 00 01 00 00 00 00 00 00 00 00 01");
    [head, row, vec![0; 248], vec![0], vec![0, 0, 0, 19], key].concat()
}

fn an_image_byte_by_byte<F: Form>() {
    let mut one = Rack::<F>::new(1);
    let fresh = one.image(IMAGE_FIXED + 2);
    assert_eq!((fresh.0, fresh.1.len()), (0, 275));
    assert_eq!(one.add(B7, &[]).0, 0);
    let image = [a1_image(), bytes("23 FE 6B CB")].concat();
    assert_eq!(one.image(294), (0, image.clone()));
    assert_eq!(one.image(400), (0, image));
    assert_eq!(one.image(293), (13, vec![]));
}

/// A controller with three keys, a tombstone and rows of other actors.
fn lived<F: Form>() -> Rack<F> {
    let mut one = Rack::<F>::with_store(1, 100);
    assert_eq!(one.add(B7, &[]).0, 0);
    assert_eq!(one.add(b"B8", &[(1, 1)]).0, 0);
    assert_eq!(one.take(&add_bytes(b"C", (2, 2), &[(5, 1)])), 0);
    one
}

/// All is the writer's but the actor, and with it the CRC; then the new actor's own adds begin.
fn an_image_loaded_and_written_again<F: Form>() {
    let one = lived::<F>();
    let (_, image) = one.image(400);
    let mut other = Rack::<F>::with_store(9, 60);
    assert_eq!(other.load(3, &image), 0);
    let mut again = image[..image.len() - CRC_SIZE].to_vec();
    again[9] = 3;
    assert_eq!(other.image(400), (0, with_crc(&again)));
    assert_eq!(other.list(), one.list());
    assert_eq!(other.block[1..], one.block[1..]);
    other.store.resize(100, FILL);
    assert_eq!(other.add(B7, &[]), (0, add_bytes(B7, (3, 1), &[])));
    assert_eq!(other.take(&add_bytes(b"D", (1, 3), &[])), 0);
    assert_eq!(other.take(&add_bytes(b"D", (3, 2), &[])), 8);
}

fn images_that_are_none<F: Form>() {
    let image = with_crc(&a1_image());
    let load = |bytes: &[u8]| Rack::<F>::new(9).load(2, bytes);
    assert_eq!(load(&image), 0);
    for length in 0..image.len() {
        assert_eq!(load(&image[..length]), if length < 5 { 2 } else { 4 });
    }
    assert_eq!(load(&[&image[..], &[0]].concat()), 4);
    for (at, byte, answer) in [
        (0, b'Q', 2),
        (4, 2, 3),
        (3, 1, 3),
        (5, b'a', 4),
        (5, b'j', 4),
    ] {
        let mut changed = a1_image();
        changed[at] = byte;
        assert_eq!(load(&with_crc(&changed)), answer);
    }
    for bit in 0..8 * image.len() {
        let mut changed = image.clone();
        changed[bit / 8] ^= 1 << (bit % 8);
        assert!([2, 3, 4, 14].contains(&load(&changed)), "{bit}");
    }
}

/// Bytes of A1's image, what stands in their place under a right CRC, and the answer.
fn images_whose_contents_break_a_rule<F: Form>() {
    let load = |at: usize, byte: u8| {
        let mut changed = a1_image();
        changed[at] = byte;
        Rack::<F>::new(9).load(2, &with_crc(&changed))
    };
    let (name, actor, base, window, key) = (7, 9, 17, 25, 271);
    assert_eq!([load(name, 0), load(actor, 0), load(actor, 17)], [5; 3]);
    assert_eq!([load(name, b'S'), load(base, 0), load(window, 2)], [6; 3]);
    assert_eq!([load(base, 2), load(base + 16 * 2, 1)], [0; 2]);
    assert_eq!([load(key, 1), load(key + 6, 0), load(key + 18, 2)], [6; 3]);
    for (count, answer) in [(1, 0), (128, 0), (129, 6), (255, 6)] {
        let mut head = a1_image()[..266].to_vec();
        head[base] = 255;
        let dots = dots(&dots_of(1, 1..=count));
        let image = [&head[..], &[count as u8], &dots, &[0; 4]].concat();
        assert_eq!(Rack::<F>::new(9).load(2, &with_crc(&image)), answer);
    }
}

fn stores_and_actors_of_a_load<F: Form>() {
    let (_, image) = lived::<F>().image(400);
    let load = |actor, store| Rack::<F>::with_store(9, store).load(actor, &image);
    // The writer's, those of a window and of a base alone, and such as are none.
    assert_eq!([1, 2, 5, 0, 17].map(|actor| load(actor, 99)), [15; 5]);
    assert_eq!([3, 16].map(|actor| load(actor, 99)), [0; 2]);
    let used = lived::<F>().sizes().1 as usize;
    assert_eq!([0, used - 1].map(|store| load(3, store)), [12; 2]);
    assert_eq!([used, STORE_MAX].map(|store| load(3, store)), [0; 2]);
    assert_eq!(load(3, STORE_MAX + 1), 1);
}

fn a_tombstone_that_is_full<F: Form>() {
    let mut one = Rack::<F>::new(1);
    for _ in 0..129 {
        assert_eq!(one.add(B7, &[]).0, 0);
    }
    for first in [1, 65] {
        assert_eq!(one.remove(&dots_of(1, first..=first + 63)).0, 0);
    }
    let full = one.clone();
    assert_eq!(one.remove(&[(1, 129)]).0, 11);
    assert_eq!(one.remove(&[(1, 7)]).0, 0);
    assert_eq!(one, full);
    assert_eq!((one.compact(), one.sizes()), (0, (0, 19)));
}

/// A remove that comes again leaves a dot without a key, which a compaction takes out.
fn a_tombstone_of_dots_without_keys<F: Form>() {
    let mut two = Rack::<F>::new(2);
    let remove = remove_bytes(&[(1, 1)]);
    assert_eq!((two.take(&remove), two.take(&remove)), (0, 0));
    assert_eq!(two.tombstone(), dots(&[(1, 1)]));
    assert_eq!((two.compact(), two.sizes()), (0, (0, 0)));
    assert_eq!(two.tombstone(), dots(&[]));
    for event in 1..=128 {
        let remove = remove_bytes(&[(3, event)]);
        assert_eq!((two.take(&remove), two.take(&remove)), (0, 0));
    }
    assert_eq!(two.remove(&[(1, 1)]).0, 11);
    assert_eq!((two.compact(), two.sizes()), (0, (0, 0)));
    assert_eq!(two.remove(&[(1, 1)]).0, 0);
    assert_eq!(two.tombstone(), dots(&[(1, 1)]));
}

#[test]
fn set_up_refused() {
    for (actor, name) in [
        (0, b"R1".as_slice()),
        (17, b"R1"),
        (1, b""),
        (1, b"R\0"),
        (1, &[b'n'; 17]),
    ] {
        let mut block = [FILL; STATE_SIZE];
        assert_eq!(set_up(actor, name, &mut block), 5);
        assert_eq!(block, [0; STATE_SIZE]);
    }
}

/// Slips 1 to 3; 4 is W4 and 5 is C1.
fn slips<F: Form>() {
    let mut two = Rack::<F>::new(2);
    assert_eq!(two.take(&bytes(A1)), 0);
    assert_eq!(two.remove(&[(1, 1)]).0, 0);
    assert_eq!((two.compact(), two.take(&bytes(A1))), (0, 0));
    assert_eq!((two.sizes(), two.list().1), ((0, 0), 0));
    let mut one = Rack::<F>::new(1);
    one.add(b"A", &[]);
    one.add(B7, &[]);
    one.remove(&[(1, 2)]);
    assert_eq!(one.list(), (entry(b"A", &[(1, 1)]), 1));
    assert_eq!(one.remove(&[(3, 1)]).0, 0);
    assert_eq!((one.row(3), one.sizes().0), ((1, 0), 1));
}

/// Each byte of block and used store matters: another value is damage or another state.
fn damage_is_answered_1_by_every_call<F: Form>() {
    let mut one = Rack::<F>::new(1);
    one.add(B7, &[]);
    one.add(b"B8", &[]);
    one.remove(&[(1, 1)]);
    let harms: [(usize, u8); 7] = [
        (STATE_ACTOR_AT, ACTOR_MAX + 1),
        (STATE_NAME_AT, 0),
        (STATE_NAME_AT + 3, 1),
        (STATE_CLOCK_AT + ROW_SIZE - 1, 1),
        (STATE_TOMBSTONE_AT + DOT_SIZE, 1),
        (STATE_TOMBSTONE_AT, 2),
        (STATE_SIZE - 1, 37),
    ];
    for (at, value) in harms {
        let mut harmed = one.clone();
        harmed.block[at] = value;
        answers_1(harmed);
    }
    for at in 0..38 {
        let mut harmed = one.clone();
        harmed.store[at] = 0xFF * u8::from(harmed.store[at] == 0);
        answers_1(harmed);
    }
}

fn answers_1<F: Form>(mut harmed: Rack<F>) {
    assert_eq!(harmed.add(B7, &[]).0, 1);
    assert_eq!(harmed.remove(&[]).0, 1);
    assert_eq!(harmed.take(&bytes(A1)), 1);
    assert_eq!(harmed.compact(), 1);
    let looked = harmed.lookup(B7);
    assert_eq!((looked.answer, looked.len, looked.listed), (1, 0, false));
    assert_eq!(harmed.page(b"", 99), refused(1));
    assert_eq!(harmed.page(b"\0", 99), refused(1));
    assert_eq!(harmed.merge(&Rack::new(1), 99), (1, vec![], 0));
    assert_eq!(harmed.merge(&harmed, 0), (1, vec![], 0));
    assert_eq!(harmed.image(0), (1, vec![]));
    let listed = F::list(&harmed.block, &harmed.store, &mut [FILL; 99]);
    assert_eq!((listed.answer, listed.written, listed.labels), (1, 0, 0));
}
