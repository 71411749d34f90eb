//! The random calls reach what they are meant to reach.

use oracle::random::{call, valid, Rng};
use oracle::{clear, price_at, sound, Clearing, Outcome};

const CALLS: u64 = 10_000;

fn outcome(seed: u64) -> Outcome {
    let call = call(seed);
    clear(&call.book, call.cleared_len, call.committed_len)
}

#[test]
fn one_seed_one_call() {
    let (first, again) = (call(7), call(7));
    assert_eq!((first.book, first.cleared_len, first.committed_len), (again.book, again.cleared_len, again.committed_len));
}

#[test]
fn valid_books_clear() {
    let mut rng = Rng::new(3);
    assert!((0..1_000).all(|_| matches!(clear(&valid::book(&mut rng), 600, 600), Outcome::Cleared(_))));
}

#[test]
fn half_clear_and_every_refusal_occurs() {
    let mut seen = [0; 11];
    for seed in 0..CALLS {
        match outcome(seed) {
            Outcome::Cleared(_) => seen[0] += 1,
            Outcome::Refused { number, .. } => seen[number as usize] += 1,
        }
    }
    println!("cleared, then refused by number: {seen:?}");
    assert!((CALLS * 45 / 100..CALLS * 60 / 100).contains(&seen[0]));
    assert!(seen.iter().all(|&times| times >= CALLS / 100), "{seen:?}");
}

/// Soundness differs from clearing only where clearing misses a value or room: there it may find a later fault, or none.
#[test]
fn soundness_agrees_with_clearing() {
    for seed in 0..CALLS {
        let fault = sound(&call(seed).book);
        let agrees = match outcome(seed) {
            Outcome::Cleared(_) | Outcome::Refused { number: 9, .. } => fault.is_none(),
            Outcome::Refused { number: 4, .. } => fault.is_none_or(|(number, _)| [5, 7, 8, 10].contains(&number)),
            Outcome::Refused { number: 6, place } => {
                fault.is_none_or(|(number, row)| [7, 8, 10].contains(&number) && row >= place)
            }
            Outcome::Refused { number, place } => fault == Some((number, place)),
        };
        assert!(agrees, "seed {seed}: {fault:?}");
    }
}

/// What a clearing may show, and whether one shows it.
type Kind = (&'static str, fn(&Clearing, &[u8]) -> bool);

#[test]
fn clearings_of_every_kind_occur() {
    let kinds: [Kind; 7] = [
        ("offers but no price", |c, _| c.price.is_none() && !c.rows.is_empty()),
        ("a price of zero", |c, _| c.price == Some(0)),
        ("make-whole", |c, _| c.make_whole > 0),
        ("a price under the curve", |c, book| c.price.is_some() && c.price < curve_price(book, c.total)),
        ("a total on the first slope", |c, book| slope(book, c.total) == Some(0)),
        ("a total on the second slope", |c, book| slope(book, c.total) == Some(1)),
        ("the last point", |c, book| points(book)[2].quantity == c.total),
    ];
    let mut seen = kinds.map(|(name, _)| (name, 0));
    for seed in 0..CALLS {
        if let Outcome::Cleared(clearing) = outcome(seed) {
            for (kind, seen) in kinds.iter().zip(&mut seen) {
                seen.1 += usize::from(kind.1(&clearing, &call(seed).book));
            }
        }
    }
    println!("{seen:?}");
    assert!(seen.iter().all(|(_, times)| *times >= CALLS as usize / 100), "{seen:?}");
}

fn points(book: &[u8]) -> [oracle::Point; 3] {
    oracle::book::read(book).unwrap().parameters.curve()
}

fn curve_price(book: &[u8], total: u32) -> Option<u32> {
    price_at(&points(book), total)
}

/// The slope that a total lies on, past its first point and before its last.
fn slope(book: &[u8], total: u32) -> Option<usize> {
    let points = points(book);
    (0..2).find(|&at| points[at].quantity < total && total < points[at + 1].quantity)
}
