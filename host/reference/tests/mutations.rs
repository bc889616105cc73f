//! Random damage to states, stores, messages and arguments: no call may stop, a refusal changes
//! nothing, and an accepted call leaves a state that is not damaged.
mod common;
use common::*;

/// A controller with some history.
fn lived(random: &mut Xorshift) -> Bench {
    let mut bench = Bench::with_store(3, 700);
    for _ in 0..random.below(12) {
        let label = *random.pick(&[&b"B7"[..], b"B70", b"C"]);
        let dot = (1 + random.below(2) as u8, 1 + random.below(66));
        match random.below(3) {
            0 => drop(bench.add(label, &[])),
            1 => drop(bench.take(&add_message(b"R1", label, dot, &[(4, dot.1)]))),
            _ => drop(bench.remove(&[dot])),
        }
    }
    bench
}

/// A number that may well lie at an edge.
fn number(random: &mut Xorshift) -> u64 {
    let any = random.next();
    let bit = 1 << random.below(64);
    *random.pick(&[0, 1, 2, 64, 128, LARGEST, LARGEST - 1, bit, any])
}

/// Sets some byte of a text.
fn scratch(random: &mut Xorshift, bytes: &mut [u8]) {
    if !bytes.is_empty() {
        let at = random.below(bytes.len() as u64) as usize;
        let any = random.next() as u8;
        bytes[at] = *random.pick(&[0, 1, 2, 16, 17, 255, any]);
    }
}

/// Damages some part of the controller, or by chance leaves it sound.
fn damage(random: &mut Xorshift, bench: &mut Bench) {
    let state = &mut bench.state;
    match random.below(10) {
        0 => state.actor = random.below(20) as u8,
        1 => scratch(random, &mut state.name),
        2 => state.name_len = number(random),
        3 | 4 => state.clock[random.below(32) as usize] = number(random),
        5 => scratch(random, &mut state.tombstone),
        6 => state.count = number(random),
        7 => state.used = number(random),
        8 => scratch(random, &mut bench.store),
        _ => bench.store.truncate(random.below(700) as usize),
    }
}

/// A message that may be valid or not.
fn message(random: &mut Xorshift) -> Vec<u8> {
    let dot = (1 + random.below(17) as u8, number(random));
    let context = [(1, 1 + random.below(9)), (2, number(random))];
    let some = &context[..random.below(3) as usize];
    let mut bytes = match random.below(2) {
        0 => add_message(b"R1", b"B7", dot, some),
        _ => remove_message(b"R1", some),
    };
    if random.chance(50) {
        scratch(random, &mut bytes);
    }
    bytes
}

/// One call; the bench itself checks that a refusal changes nothing.
fn call(random: &mut Xorshift, bench: &mut Bench) -> u8 {
    let mut context = dots(&[(1, 1 + random.below(9)), (2, 1 + random.below(70))]);
    context.truncate(*random.pick(&[0, 5, 9, 18]));
    let room = random.below(60) as usize;
    match random.below(4) {
        0 => bench.add_bytes(b"B7", &context, room).0,
        1 => bench.remove_bytes(&context, room).0,
        2 => bench.take(&message(random)),
        _ => bench.compact(),
    }
}

#[test]
fn nothing_stops_and_nothing_is_damaged() {
    let mut random = Xorshift(0x5EED_0003);
    let mut met = [0u64; reference::limits::ANSWERS];
    for _ in 0..20_000 {
        let mut bench = lived(&mut random);
        if random.chance(50) {
            damage(&mut random, &mut bench);
        }
        let was_sound = bench.list().0 == 0;
        assert_eq!(bench.lookup(b"B7").answer == 0, was_sound);
        assert_eq!(bench.image().0 == 0, was_sound);
        let answer = call(&mut random, &mut bench);
        assert_eq!(answer == 1, !was_sound);
        assert_eq!(bench.list().0 == 0, was_sound);
        met[usize::from(answer)] += 1;
    }
    println!("{met:?}");
    assert!(met[0] > 3000 && met[1] > 3000);
    for answer in [4, 5, 6, 7, 8, 10, 12, 13] {
        assert!(met[answer] > 0, "{answer}");
    }
}
