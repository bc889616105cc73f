//! Rounds: each side in turn on a fresh copy of the same buffers, timed, and compared by all that
//! it leaves.

use super::stats::Summary;
use super::{names, Sides, Stopped, SIDES};
use crate::engine::Engine;
use crate::script::Rack;
use std::time::Instant;

/// Something to time.
pub trait Workload {
    /// The buffers that a run changes.
    type Buffers: Clone;

    /// The buffers as a run gets them.
    fn start(&self) -> &Self::Buffers;

    /// The run; nothing else is timed.
    fn run(&self, engine: &dyn Engine, buffers: &mut Self::Buffers);

    /// What is wrong with the buffers that the product and another side left, if anything is.
    fn difference(&self, product: &Self::Buffers, other: &Self::Buffers) -> Option<String>;
}

/// Who goes first, second and third, from round to round: each side is at each place as often, and
/// follows each other one as often.
const ORDERS: [[usize; SIDES]; 6] = [
    [0, 1, 2],
    [1, 0, 2],
    [2, 0, 1],
    [0, 2, 1],
    [1, 2, 0],
    [2, 1, 0],
];

/// Times so many rounds, after one that is not counted; in seconds.
pub fn rounds<W: Workload>(sides: Sides, workload: &W, number: usize) -> Result<Summary, Stopped> {
    let mut times = Vec::with_capacity(number);
    for round in 0..=number {
        let time = one_round(sides, workload, ORDERS[round % ORDERS.len()])?;
        if round > 0 {
            times.push(time);
        }
    }
    Ok(Summary::of(&times))
}

/// One run of each side, in this order: their times.
fn one_round<W: Workload>(
    sides: Sides,
    workload: &W,
    order: [usize; SIDES],
) -> Result<[f64; SIDES], Stopped> {
    let mut times = [0.0; SIDES];
    let mut left = [const { None }; SIDES];
    for side in order {
        let (time, buffers) = timed(sides[side], workload);
        times[side] = time;
        left[side] = Some(buffers);
    }
    let [Some(product), others @ ..] = &left else {
        return Ok(times);
    };
    for (other, name) in others.iter().flatten().zip(&names(sides)[1..]) {
        if let Some(what) = workload.difference(product, other) {
            return Err(Stopped::Differs(format!("{what} ({name} form)")));
        }
    }
    Ok(times)
}

/// One run. Its buffers are copied just before, so that each side finds them in the same cache.
fn timed<W: Workload>(engine: &dyn Engine, workload: &W) -> (f64, W::Buffers) {
    let mut buffers = workload.start().clone();
    let start = Instant::now();
    workload.run(engine, &mut buffers);
    (start.elapsed().as_secs_f64(), buffers)
}

/// The first byte in which the controllers of the product and of another side differ, in words.
pub fn differing_byte(product: &Rack, other: &Rack) -> Option<String> {
    let states = [product.state.block().as_slice(), other.state.block()];
    first_difference("state byte", states)
        .or_else(|| first_difference("store byte", [&product.store, &other.store]))
}

/// The first place in which the bytes of the two differ, in words.
pub fn first_difference(of: &str, sides: [&[u8]; 2]) -> Option<String> {
    let [product, other] = sides;
    if product == other {
        return None;
    }
    let mut both = product.iter().zip(other).enumerate();
    match both.find(|(_, (one, other))| one != other) {
        Some((at, (one, other))) => Some(format!("{of} {at}: product {one}, baseline {other}")),
        None => Some(format!("{of}: other length")),
    }
}

#[test]
fn each_side_is_at_each_place_as_often() {
    for side in 0..SIDES {
        for place in 0..SIDES {
            let there = ORDERS.iter().filter(|order| order[place] == side);
            assert_eq!(there.count(), ORDERS.len() / SIDES);
        }
        let before = ORDERS.iter().flat_map(|order| order.windows(2));
        let before: Vec<usize> = { before }
            .filter(|pair| pair[1] == side)
            .map(|pair| pair[0])
            .collect();
        assert_eq!(
            before
                .iter()
                .filter(|other| **other == (side + 1) % SIDES)
                .count(),
            2
        );
        assert_eq!(before.len(), 4);
    }
}
