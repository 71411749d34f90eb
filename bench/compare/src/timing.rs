//! The best of many batches.

use std::time::{Duration, Instant};

const BATCHES: usize = 200;
const BATCH: Duration = Duration::from_micros(200);

/// The time of one call of each, in microseconds: the best of many batches, which take turns so that all meet the same machine.
pub fn best<const N: usize>(mut calls: [&mut dyn FnMut(); N]) -> [f64; N] {
    let sizes: Vec<u32> = calls.iter_mut().map(|call| batch_size(call)).collect();
    let mut best = [f64::INFINITY; N];
    for _ in 0..BATCHES {
        for at in 0..N {
            best[at] = best[at].min(micros(&mut calls[at], sizes[at]));
        }
    }
    best
}

/// How many calls a batch needs to be long enough to measure.
fn batch_size(call: &mut dyn FnMut()) -> u32 {
    let mut size = 1;
    while micros(call, size) * f64::from(size) < BATCH.as_secs_f64() * 1e6 {
        size *= 2;
    }
    size
}

fn micros(call: &mut dyn FnMut(), size: u32) -> f64 {
    let start = Instant::now();
    for _ in 0..size {
        call();
    }
    start.elapsed().as_secs_f64() * 1e6 / f64::from(size)
}
