//! Times of one call, the median and the fastest of many: `cargo run --release --example times`.

use oracle::book::{Offer, Parameters};
use oracle::make::{book, offer, reference};
use std::hint::black_box;
use std::time::{Duration, Instant};

/// Six hundred offers, most of which clear: at distinct prices, or tied at one price with spare tenths to give.
fn books() -> [(&'static str, Vec<u8>); 5] {
    let [cost, offset, outage, requirement] = [1_000_000, 0, 5_000, 2_000_000].map(Some);
    let largest = Parameters { year: 2099, cost, offset, outage, requirement, margin: None };
    let mixed = |at: u32| at * 7_919 % 601;
    let distinct = |scale: u32, price: u32| -> Vec<Offer> {
        (1..=600)
            .map(|at| Offer { block: Some(9), ..offer(at, scale * (10 + at % 20), price * mixed(at), at.into()) })
            .collect()
    };
    let tied: Vec<Offer> =
        (1..=600).map(|at| Offer { block: Some(20), ..offer(at, 20 + at % 7, 37_500, (at % 5).into()) }).collect();
    let extreme: Vec<Offer> = (1..=600).map(|at| Offer { block: Some(200_000), ..offer(at, 200_000, 958_904, 1) }).collect();
    let none: Vec<Offer> = Vec::new();
    [
        ("600 distinct", book(&reference(), &distinct(1, 60))),
        ("600 distinct, largest curve", book(&largest, &distinct(200, 1_000))),
        ("600 tied", book(&reference(), &tied)),
        ("600 tied, largest curve", book(&largest, &extreme)),
        ("no offers", book(&reference(), &none)),
    ]
}

fn median(times: usize, mut run: impl FnMut()) -> (Duration, Duration) {
    let mut taken: Vec<Duration> = (0..times)
        .map(|_| {
            let start = Instant::now();
            run();
            start.elapsed()
        })
        .collect();
    taken.sort();
    (taken[times / 2], taken[0])
}

fn main() {
    let (mut cleared, mut committed) = ([0; 600], [0; 600]);
    for (name, book) in books() {
        let plain = median(5_000, || {
            black_box(plain::clear(black_box(&book), &mut cleared, &mut committed));
        });
        let oracle = median(200, || {
            black_box(oracle::clear(black_box(&book), 600, 600));
        });
        println!("{name}: plain {:?} (fastest {:?}), oracle {:?} (fastest {:?})", plain.0, plain.1, oracle.0, oracle.1);
    }
}
