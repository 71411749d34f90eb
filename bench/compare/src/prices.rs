//! Times of one price of the curve, between cents, from parameters that a caller holds in the form of the C interface. The crate's
//! own call, which puts its parameters into that form first, is timed beside it.

use crate::done;
use crate::timing::best;
use ozpinduru::raw::{self, Value};
use ozpinduru::{price_at, DollarsPerMwYear, Parameters, Tenths};
use plain::{ExactPrice, Given};
use std::hint::black_box;

/// The most that the library's time over plain Rust's may be.
const TARGET: f64 = 1.0;

const PARAMETERS: Parameters = Parameters {
    year: 2026,
    cost: Some(DollarsPerMwYear(146_000)),
    offset: Some(DollarsPerMwYear(73_000)),
    outage: Some(2_000),
    requirement: Some(Tenths(10_000)),
    margin: None,
};

const PLAIN: Given = Given {
    year: 2026,
    cost: Some(146_000),
    offset: Some(73_000),
    outage: Some(2_000),
    requirement: Some(10_000),
    margin: None,
};

const fn given(number: u32) -> Value {
    Value { kind: raw::GIVEN, number }
}

const HELD: raw::Parameters = raw::Parameters {
    year: 2026,
    cost: given(146_000),
    offset: given(73_000),
    outage: given(2_000),
    requirement: given(10_000),
    margin: Value { kind: raw::MISSING, number: 0 },
};

/// A line for the whole curve, a quantity a megawatt after the other, and one for each part of it.
pub fn compare() {
    println!("{:<42} {:>8} {:>8} {:>6} {:>8}  target", "nanoseconds a price", "library", "plain", "ratio", "crate");
    for (name, from, to) in [
        ("exact price, over the whole curve", 0, 10_450),
        ("exact price on the level stretch", 5_000, 5_000),
        ("exact price on the first line", 10_001, 10_001),
        ("exact price on the second line", 10_151, 10_151),
        ("exact price past the last point: none", 10_451, 10_451),
    ] {
        let [mut j, mut k, mut l] = [from; 3];
        agree(name, from);
        // The quantity comes first, so that the parameters are copied once, into their place of the call. With it behind them Rust
        // copies their 44 bytes twice, and the second copy waits for the first.
        let [library, plain, through] = best([
            &mut || {
                let at = next(&mut j, from, to);
                // SAFETY: the call takes numbers alone.
                done(unsafe { raw::ozp_price_at(*black_box(&HELD), at) })
            },
            &mut || {
                let at = next(&mut k, from, to);
                done(plain::price_at(*black_box(&PLAIN), at))
            },
            &mut || {
                let at = Tenths(next(&mut l, from, to));
                done(price_at(black_box(&PARAMETERS), at))
            },
        ])
        .map(|micros| 1_000.0 * micros);
        let ratio = library / plain;
        let met = if ratio <= TARGET { "met" } else { "missed" };
        println!("{name:<42} {library:>8.2} {plain:>8.2} {ratio:>6.2} {through:>8.2}  {TARGET:.1} {met}");
    }
}

/// The quantity that is asked next: a megawatt on, and from the start again past the end.
fn next(k: &mut u32, from: u32, to: u32) -> u32 {
    *k = if *k + 10 > to { from } else { *k + 10 };
    black_box(*k)
}

/// Stops where the three do not give the same price.
fn agree(name: &str, k: u32) {
    let found = price_at(&PARAMETERS, Tenths(k)).unwrap();
    let due = found.map(|p| ExactPrice { cents: p.cents().0, remainder: p.remainder(), divisor: p.divisor() });
    assert_eq!(plain::price_at(PLAIN, k), Ok(due), "{name}");
    // SAFETY: the call takes numbers alone.
    let held = unsafe { raw::ozp_price_at(HELD, k) };
    assert_eq!((held.kind == raw::GIVEN).then_some(held.cents), due.map(|price| price.cents), "{name}");
}
