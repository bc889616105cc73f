//! All forms on the same stores, sound and damaged: the same answers, places and bytes.

use baseline::*;
use limits::{
    ACTORS, ACTOR_MAX, CONTEXT_DOTS_MAX, CRC_SIZE, DOT_SIZE, IMAGE_FIXED, KEY_MAX, LABEL_MAX,
    MESSAGE_MAX, NAME_MAX, NUMBER_SIZE, PRINT_MAX, PRINT_MIN, ROW_SIZE, STATE_CLOCK_AT,
    STATE_COUNT_AT, STATE_SIZE, STATE_TOMBSTONE_AT, STATE_USED_AT, TOMBSTONE_DOTS_MAX,
    TOMBSTONE_SIZE, WINDOW,
};
use std::collections::BTreeSet;

/// Numbers that look random, the same every time.
struct Random(u64);

impl Random {
    fn next(&mut self) -> u64 {
        self.0 ^= self.0 << 13;
        self.0 ^= self.0 >> 7;
        self.0 ^= self.0 << 17;
        self.0.wrapping_mul(0x2545_F491_4F6C_DD1D) >> 16
    }

    /// Below this number, which is not 0.
    fn below(&mut self, number: usize) -> usize {
        (self.next() % number as u64) as usize
    }

    fn between(&mut self, least: usize, most: usize) -> usize {
        least + self.below(most - least + 1)
    }

    fn pick<T: Copy>(&mut self, from: &[T]) -> T {
        from[self.below(from.len())]
    }

    /// Bytes that are not 00: all of them print, or many are such that a search for a 00 could
    /// mistake them.
    fn bytes(&mut self, number: usize) -> Vec<u8> {
        const PRINT: [u8; 8] = [PRINT_MIN, b'!', b'0', b'A', b'a', b'e', b'}', PRINT_MAX];
        const HARD: [u8; 8] = [0x01, 0x02, 0x7F, 0x80, 0x81, 0xFE, 0xFF, b'e'];
        let from = self.pick(&[PRINT, HARD]);
        (0..number).map(|_| self.pick(&from)).collect()
    }
}

/// A controller and its lent store.
#[derive(Clone, PartialEq, Eq, Debug)]
struct Rack {
    block: Block,
    store: Vec<u8>,
}

/// An actor and a counter.
type Dot = (u8, u64);

impl Rack {
    fn new(name: &[u8]) -> Rack {
        let mut block = [0; STATE_SIZE];
        assert_eq!(set_up(1, name, &mut block), 0);
        let store = Vec::new();
        Rack { block, store }
    }

    fn set_number(&mut self, at: usize, number: u64) {
        self.block[at..at + NUMBER_SIZE].copy_from_slice(&number.to_be_bytes());
    }

    fn set_row(&mut self, actor: u8, base: u64, window: u64) {
        let at = STATE_CLOCK_AT + ROW_SIZE * (usize::from(actor) - 1);
        self.set_number(at, base);
        self.set_number(at + NUMBER_SIZE, window);
    }

    /// Puts these keys in the store, in the order that they come in, with room after them.
    fn put_keys(&mut self, keys: &[Vec<u8>], room: usize) {
        self.store = keys.concat();
        self.set_number(STATE_USED_AT, self.store.len() as u64);
        self.store.resize(self.store.len() + room, 0xA5);
    }

    fn put_tombstone(&mut self, dots: &BTreeSet<Dot>) {
        self.set_number(STATE_COUNT_AT, dots.len() as u64);
        for (slot, dot) in dots.iter().enumerate() {
            let at = STATE_TOMBSTONE_AT + DOT_SIZE * slot;
            self.block[at..at + DOT_SIZE].copy_from_slice(&bytes_of(*dot));
        }
    }
}

fn bytes_of((actor, counter): Dot) -> Vec<u8> {
    [&[actor], counter.to_be_bytes().as_slice()].concat()
}

fn key(name: &[u8], label: &[u8], (actor, counter): Dot) -> Vec<u8> {
    let mut out = [0; KEY_MAX];
    let wrote = write_key(b'e', name, label, actor, counter, &mut out);
    assert_eq!(wrote.answer, 0, "{label:?}");
    out[..wrote.written].to_vec()
}

/// The bytes of an add.
fn add(name: &[u8], label: &[u8], dot: Dot, context: &[u8]) -> Vec<u8> {
    let mut message = b"PTL\x00\x01a".to_vec();
    for field in [name, label] {
        message.push(field.len() as u8);
        message.extend(field);
    }
    message.extend(bytes_of(dot));
    message.push((context.len() / DOT_SIZE) as u8);
    message.extend(context);
    message
}

/// What a call is given beside state and store.
struct Given {
    label: Vec<u8>,
    context: Vec<u8>,
    message: Vec<u8>,
    image: Vec<u8>,
    out: usize,
}

/// The calls of `all_calls` that add a key.
const OWN_ADD: usize = 0;
const TAKE_IN: usize = 2;

/// What every call of a form answers and leaves.
fn all_calls<F: Calls>(rack: &Rack, given: &Given) -> Vec<(String, Rack, Vec<u8>)> {
    let mut done = Vec::new();
    let mut call = |call: &dyn Fn(&mut Rack, &mut [u8]) -> String| {
        let (mut rack, mut out) = (rack.clone(), vec![0xA5; given.out]);
        let said = call(&mut rack, &mut out);
        done.push((said, rack, out));
    };
    let Given { label, context, .. } = given;
    call(&|Rack { block, store }, out| {
        format!("{:?}", F::own_add(block, store, label, context, out))
    });
    call(&|Rack { block, store }, out| format!("{:?}", F::own_remove(block, store, context, out)));
    call(&|Rack { block, store }, _| format!("{}", F::take_in(block, store, &given.message)));
    call(&|Rack { block, store }, out| format!("{:?}", F::list(block, store, out)));
    call(&|Rack { block, store }, out| format!("{:?}", F::page(block, store, label, out)));
    call(&|Rack { block, store }, out| format!("{:?}", F::page(block, store, &[], out)));
    let mut other = rack.clone();
    F::take_in(&mut other.block, &mut other.store, &given.message);
    F::own_remove(
        &mut other.block,
        &other.store,
        context,
        &mut [0; MESSAGE_MAX],
    );
    for other in [rack, &other] {
        call(&|Rack { block, store }, out| {
            format!(
                "{:?}",
                F::merge(block, store, &other.block, &other.store, out)
            )
        });
    }
    call(&|Rack { block, store }, out| format!("{:?}", F::write_image(block, store, out)));
    call(&|Rack { block, store }, _| {
        let answer = F::load_image(ACTOR_MAX, &given.image, block, store);
        format!("load {answer}")
    });
    call(&|Rack { block, store }, _| format!("{:?}", F::lookup(block, store, label)));
    call(&|Rack { block, store }, _| format!("{}", F::compact(block, store)));
    done
}

/// The answer that all forms give to a state and its store: 1 if they are damaged, else 0.
fn judged(rack: &Rack) -> u8 {
    let Rack { block, store } = rack;
    let answer = Plain::lookup(block, store, b"x").answer;
    let others = [Tuned::lookup, Fastest::lookup].map(|lookup| lookup(block, store, b"x").answer);
    assert_eq!(others, [answer; 2], "{rack:?}");
    answer
}

/// Labels of any length, of one length, with the same bytes at their front, or a few that come
/// often.
fn labels(random: &mut Random, number: usize) -> Vec<Vec<u8>> {
    let front = random.bytes(LABEL_MAX);
    let length = random.between(1, LABEL_MAX);
    let looks = random.below(4);
    let mut label = || {
        let any = random.between(1, LABEL_MAX);
        match looks {
            0 => random.bytes(any),
            1 => random.bytes(length),
            2 if any > length => [&front[..length], &random.bytes(any - length)].concat(),
            _ => front[..random.pick(&[1, 7, 8, 9, 15, 16, 17, LABEL_MAX])].to_vec(),
        }
    };
    (0..number).map(|_| label()).collect()
}

/// A sound controller with its name and what its keys stand for, in their order.
struct Made {
    rack: Rack,
    name: Vec<u8>,
    /// Some of the dots that were seen.
    seen: Vec<Dot>,
    entries: BTreeSet<(Vec<u8>, Dot)>,
}

impl Made {
    fn keys(&self) -> Vec<Vec<u8>> {
        let keys = self.entries.iter();
        keys.map(|(label, dot)| key(&self.name, label, *dot))
            .collect()
    }
}

fn made(random: &mut Random) -> Made {
    let length = random.between(1, NAME_MAX);
    let name = random.bytes(length);
    let mut rack = Rack::new(&name);
    let seen = set_clock(random, &mut rack);
    let number = random.pick(&[0, 1, 2, 3, 5, 20, 60]);
    let labels = labels(random, number).into_iter();
    let entries: BTreeSet<(Vec<u8>, Dot)> =
        labels.map(|label| (label, random.pick(&seen))).collect();
    let dead = random.pick(&[0, 1, 40, TOMBSTONE_DOTS_MAX]);
    rack.put_tombstone(&(0..dead).map(|_| random.pick(&seen)).collect());
    let mut made = Made {
        rack,
        name,
        seen,
        entries,
    };
    let keys = made.keys();
    made.rack.put_keys(&keys, random.pick(&[0, 5, KEY_MAX]));
    made
}

/// Sets the rows of all actors; some of the dots that are then seen.
fn set_clock(random: &mut Random, rack: &mut Rack) -> Vec<Dot> {
    let mut seen = vec![(1, 1)];
    // A box that loads an image may take the last one, if its row is empty.
    let actors = ACTOR_MAX - random.below(2) as u8;
    for actor in 1..=actors {
        let base = random.pick(&[1, 5, 300, 1 << 40, u64::MAX - WINDOW]);
        let window = if actor == 1 { 0 } else { random.next() & !1 };
        rack.set_row(actor, base, window);
        seen.extend((base.saturating_sub(9).max(1)..=base).map(|counter| (actor, counter)));
        let late = (0..WINDOW).filter(|bit| window >> bit & 1 == 1);
        seen.extend(late.map(|bit| (actor, base + 1 + bit)));
    }
    seen
}

/// Arguments, many of them about a label that the store has or nearly has.
fn given(random: &mut Random, made: &Made) -> Given {
    let entry = random.below(made.entries.len().max(1));
    let stored = made.entries.iter().nth(entry);
    let mut label = stored.map_or(b"x".to_vec(), |(label, _)| label.clone());
    match random.below(6) {
        0 => drop(label.pop()),
        1 => label.push(random.pick(&[1, PRINT_MIN])),
        2 => label = random.bytes(8),
        _ => (),
    }
    let dots: BTreeSet<Dot> = match random.below(4) {
        0 => {
            let number = random.pick(&[1, 16, 17, CONTEXT_DOTS_MAX]);
            (0..number).map(|_| random.pick(&made.seen)).collect()
        }
        _ => (0..random.below(3))
            .map(|_| (random.between(1, ACTORS) as u8, random.next() % 80 + 1))
            .collect(),
    };
    let context: Vec<u8> = dots.into_iter().flat_map(bytes_of).collect();
    let dot = (random.between(2, ACTORS) as u8, random.next() % 400 + 1);
    Given {
        message: add(&made.name, &label, dot, &context),
        image: image(random, &made.rack),
        label,
        context,
        out: random.pick(&[0, 40, MESSAGE_MAX, 5_000]),
    }
}

/// An image of a controller, in which a byte may be another, mostly under a right CRC.
fn image(random: &mut Random, rack: &Rack) -> Vec<u8> {
    let mut image = vec![0; IMAGE_FIXED + NAME_MAX + TOMBSTONE_SIZE + rack.store.len()];
    let wrote = Plain::write_image(&rack.block, &rack.store, &mut image);
    image.truncate(wrote.written - CRC_SIZE);
    if random.below(3) > 0 {
        let at = random.below(image.len());
        image[at] = random.pick(&[0, 1, b'e', 0xFF]);
    }
    let right = u32::from(random.below(8) > 0);
    image.extend((crc32(&image) ^ 1 ^ right).to_be_bytes());
    image
}

#[test]
fn random_stores_get_the_same_from_all_forms() {
    let mut random = Random(1);
    let (mut answers, mut added) = (BTreeSet::new(), [0; 2]);
    for _ in 0..20_000 {
        let made = made(&mut random);
        let given = given(&mut random, &made);
        assert_eq!(judged(&made.rack), 0, "{:?}", made.rack);
        let plain = all_calls::<Plain>(&made.rack, &given);
        for other in [all_calls::<Tuned>, all_calls::<Fastest>] {
            assert_eq!(plain, other(&made.rack, &given), "{:?}", made.rack);
        }
        for (call, added) in [OWN_ADD, TAKE_IN].into_iter().zip(&mut added) {
            *added += usize::from(plain[call].1.store != made.rack.store);
        }
        answers.extend(plain.into_iter().map(|(said, _, _)| said));
    }
    assert!(answers.len() > 5_000, "{}", answers.len());
    for answer in [0, 2, 3, 4, 5, 6, 14, 15] {
        assert!(answers.contains(&format!("load {answer}")), "{answer}");
    }
    assert!(added.iter().all(|number| *number > 100), "{added:?}");
}

/// Changes a byte, the used length, a row of the clock, or the order or number of these keys.
fn damage(random: &mut Random, rack: &mut Rack, keys: &[Vec<u8>]) {
    let used = keys.concat().len().min(rack.store.len());
    let (one, other) = (random.below(keys.len()), random.below(keys.len()));
    let at = random.below(used);
    match random.below(8) {
        0 => rack.store[at] = 0,
        1 => rack.store[at] = random.next() as u8,
        2 => rack.store[at] ^= 1 << random.below(8),
        3 => rack.store.copy_within(at..used, at - at.min(1)),
        4 => rack.set_number(STATE_USED_AT, at as u64),
        5 => rack.set_row(random.between(2, ACTORS) as u8, random.next() % 9, 0),
        6 => {
            let mut keys = keys.to_vec();
            keys.swap(one, other);
            rack.put_keys(&keys, 0);
        }
        _ => {
            let mut keys = keys.to_vec();
            keys[one] = keys[other].clone();
            rack.put_keys(&keys, 0);
        }
    }
}

#[test]
fn random_damage_is_judged_the_same_by_all_forms() {
    let mut random = Random(2);
    let mut verdicts = [0; 2];
    while verdicts[1] < 100_000 {
        let made = made(&mut random);
        let keys = made.keys();
        for _ in 0..10 * keys.len().min(1) {
            let mut rack = made.rack.clone();
            for _ in 0..random.between(1, 2) {
                damage(&mut random, &mut rack, &keys);
            }
            verdicts[usize::from(judged(&rack))] += 1;
        }
    }
    assert!(verdicts[0] > 1_000, "{verdicts:?}");
}

/// Three keys of which two have the same label, for names and labels of every length.
fn three_keys(name: usize, label: usize) -> (Rack, [Vec<u8>; 3]) {
    let (name, label) = (vec![2; name], vec![b'a'; label]);
    let mut above = label.clone();
    above[0] = b'b';
    let mut rack = Rack::new(&name);
    rack.set_row(1, 9, 0);
    let keys = [
        key(&name, &label, (1, 1)),
        key(&name, &label, (1, 2)),
        key(&name, &above, (1, 1)),
    ];
    (rack, keys)
}

#[test]
fn keys_must_ascend_whatever_their_lengths() {
    for name in 1..=NAME_MAX {
        for label in 1..=LABEL_MAX {
            let (mut rack, keys) = three_keys(name, label);
            for order in 0..27 {
                let order = [order / 9, order / 3 % 3, order % 3];
                let ascends = order[0] < order[1] && order[1] < order[2];
                rack.put_keys(&order.map(|key| keys[key].clone()), 3);
                assert_eq!(
                    judged(&rack),
                    u8::from(!ascends),
                    "{name} {label} {order:?}"
                );
            }
        }
    }
}

#[test]
fn a_store_must_end_with_a_key() {
    for name in 1..=NAME_MAX {
        for label in 1..=LABEL_MAX {
            let (mut rack, keys) = three_keys(name, label);
            rack.put_keys(&keys, 100);
            for used in 0..keys.concat().len() + 100 {
                rack.set_number(STATE_USED_AT, used as u64);
                let ends = used <= 3 * keys[0].len() && used.is_multiple_of(keys[0].len());
                assert_eq!(judged(&rack), u8::from(!ends), "{name} {label} {used}");
            }
        }
    }
}

#[test]
fn every_label_is_found_among_labels_that_begin_alike() {
    finds_every_label::<Plain>();
    finds_every_label::<Tuned>();
    finds_every_label::<Fastest>();
}

/// Places of labels that are stored and of labels between them, by lookup and by taking in.
fn finds_every_label<F: Calls>() {
    for same in 0..LABEL_MAX {
        for length in same + 1..=LABEL_MAX {
            let mut rack = Rack::new(b"R1");
            rack.set_row(1, 9, 0);
            let label = |last: u8| [vec![b'a'; same], vec![last; length - same]].concat();
            let keys: Vec<Vec<u8>> = [b'2', b'4', b'6']
                .into_iter()
                .flat_map(|last| [1, 3].map(|counter| key(b"R1", &label(last), (1, counter))))
                .collect();
            rack.put_keys(&keys, KEY_MAX);
            for last in b'1'..=b'7' {
                let Rack { block, store } = &rack;
                let found = F::lookup(block, store, &label(last));
                let before = usize::from(last - b'1') / 2 * 2 * keys[0].len();
                let here = if last % 2 == 0 { 2 * keys[0].len() } else { 0 };
                assert_eq!(
                    (found.at, found.len),
                    (before, here),
                    "{same} {length} {last}"
                );
                let mut taken = rack.clone();
                let message = add(b"R1", &label(last), (2, 1), &[]);
                assert_eq!(F::take_in(&mut taken.block, &mut taken.store, &message), 0);
                let stored = key(b"R1", &label(last), (2, 1));
                assert_eq!(taken.store[before + here..][..stored.len()], stored);
            }
        }
    }
}
