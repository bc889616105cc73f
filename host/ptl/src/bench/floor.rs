//! The floor: a plain copy and a plain compare of as many bytes as the calls find used.

use limits::STORE_MAX;
use std::hint::black_box;
use std::time::Instant;

/// The shortest time of so many runs, in seconds, each of which copies and compares stretches of
/// these lengths one after another.
pub fn time(lengths: &[usize], runs: usize) -> f64 {
    let from = vec![0x5A; STORE_MAX];
    let mut to = vec![0; STORE_MAX];
    let run = |to: &mut Vec<u8>| {
        let start = Instant::now();
        for length in lengths {
            let length = black_box(*length).min(STORE_MAX);
            copy_and_compare(&from[..length], &mut to[..length]);
        }
        start.elapsed().as_secs_f64()
    };
    let times = (0..runs.max(1)).map(|_| run(&mut to));
    times.fold(f64::INFINITY, f64::min)
}

fn copy_and_compare(from: &[u8], to: &mut [u8]) {
    to.copy_from_slice(black_box(from));
    black_box(black_box(&*to) == from);
}
