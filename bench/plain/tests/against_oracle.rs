//! The same answers as the oracle's, and the same buffers, on the calls of 20,000 seeds, or of as many as CALLS says; and the same
//! prices of the curve that their books' parameters make.

use oracle::book::Parameters;
use oracle::random::{call, Call};
use oracle::{exact_price_at, limits};
use plain::{clear, clear_tuned, price_at, Clearing, ExactPrice, Given, Outcome};

type Clear = fn(&[u8], &mut [u32], &mut [u32]) -> Outcome;

const UNTOUCHED: u32 = 0xDEAD_BEEF;

/// What the oracle says the call returns, and leaves in buffers that held `UNTOUCHED`.
fn expected(call: &Call) -> (Outcome, Vec<u32>, Vec<u32>) {
    let mut cleared = vec![UNTOUCHED; call.cleared_len];
    let mut committed = vec![UNTOUCHED; call.committed_len];
    let outcome = match oracle::clear(&call.book, call.cleared_len, call.committed_len) {
        oracle::Outcome::Refused { number, place } => Outcome::Refused { number, place },
        oracle::Outcome::Cleared(c) => {
            for (at, row) in c.rows.iter().enumerate() {
                cleared[at] = row.cleared;
                committed[at] = row.committed;
            }
            let (total, price, make_whole, daily, year) = (c.total, c.price, c.make_whole, c.daily, c.year);
            Outcome::Cleared(Clearing { total, price, make_whole, daily, year })
        }
    };
    (outcome, cleared, committed)
}

fn seeds() -> std::ops::Range<u64> {
    0..std::env::var("CALLS").map_or(20_000, |calls| calls.parse().unwrap())
}

#[test]
fn random_calls() {
    for seed in seeds() {
        let call = call(seed);
        let due = expected(&call);
        for (name, clear) in [("plain", clear as Clear), ("tuned", clear_tuned)] {
            let mut cleared = vec![UNTOUCHED; call.cleared_len];
            let mut committed = vec![UNTOUCHED; call.committed_len];
            let outcome = clear(&call.book, &mut cleared, &mut committed);
            assert!((outcome, cleared, committed) == due, "{name}, seed {seed}: {outcome:?}, {:?}", due.0);
        }
    }
}

#[test]
fn random_prices() {
    for (seed, book) in seeds().filter_map(|seed| Some((seed, oracle::book::read(&call(seed).book).ok()?))) {
        let p = book.parameters;
        let Parameters { cost, offset, outage, requirement, margin, .. } = p;
        let given = Given { year: p.year.try_into().unwrap(), cost, offset, outage, requirement, margin };
        if let Some(fault) = limits::missing(&p).or_else(|| limits::out_of_range(&p)) {
            assert_eq!(price_at(given, 0), Err(fault), "seed {seed}");
            continue;
        }
        let points = p.curve();
        for k in points.map(|point| point.quantity).into_iter().flat_map(|q| [q - 1, q, q + 1]) {
            let due = exact_price_at(&points, k);
            let due = due.map(|p| ExactPrice { cents: p.cents, remainder: p.remainder, divisor: p.divisor });
            assert_eq!(price_at(given, k), Ok(due), "seed {seed} at {k}");
        }
    }
}
