//! Losers don't matter: the pairs of tests/comparisons, the claim on random pairs, and that it needs every premise.

use oracle::book::{self, Book, MOST_OFFERS};
use oracle::comparison::{at_or_below, compare, Comparison};
use oracle::random::{pairs, valid, Rng};
use oracle::{clear, Clearing, Outcome};
use std::fs;
use std::path::Path;

fn said(comparison: Comparison) -> String {
    let row = |row: Option<usize>| row.map_or("-".to_string(), |row| row.to_string());
    match comparison {
        Comparison::Applies { price, shared } => format!("applies {price} {shared}\n"),
        Comparison::FirstRefused { number, place } => format!("refused 1 {number} {place}\n"),
        Comparison::SecondRefused { number, place } => format!("refused 2 {number} {place}\n"),
        Comparison::NothingClears => "nothing clears\n".to_string(),
        Comparison::ParametersDiffer { field } => format!("field {field}\n"),
        Comparison::OffersDiffer { row: one, other } => format!("rows {} {}\n", row(one), row(other)),
    }
}

#[test]
fn pairs_that_ship_with_the_project() {
    let folder = Path::new(env!("CARGO_MANIFEST_DIR")).join("../comparisons");
    let mut count = 0;
    for entry in fs::read_dir(&folder).unwrap() {
        let path = entry.unwrap().path();
        if path.extension().is_some_and(|extension| extension == "txt") {
            let [first, second] = ["first.book", "second.book"].map(|end| fs::read(path.with_extension(end)).unwrap());
            assert_eq!(said(compare(&first, &second)), fs::read_to_string(&path).unwrap(), "{path:?}");
            count += 1;
        }
    }
    assert!(count > 30);
}

fn cleared(bytes: &[u8]) -> Option<Clearing> {
    match clear(bytes, MOST_OFFERS, MOST_OFFERS) {
        Outcome::Cleared(clearing) => Some(clearing),
        Outcome::Refused { .. } => None,
    }
}

/// Price, total, amounts, and what each offer at or below a price gets.
fn sold(price: u32, book: &Book, clearing: &Clearing) -> (Option<u32>, u32, u64, u64, Vec<(u32, u32, u32, u64)>) {
    let rows = at_or_below(price, book).into_iter().map(|(row, _)| {
        let row = &clearing.rows[row];
        (row.resource, row.cleared, row.committed, row.make_whole)
    });
    (clearing.price, clearing.total, clearing.daily, clearing.year, rows.collect())
}

/// How often a premise holds of random pairs, and how often the answers differ though it holds. Parameters are the same, both
/// books are accepted and the first has a price.
fn tried(premise: impl Fn(u32, &Book, &Book) -> bool) -> (usize, usize) {
    let (mut holds, mut differ) = (0, 0);
    for seed in 0..1_000 {
        let rng = &mut Rng::new(seed);
        let first = valid::book(rng);
        let second = pairs::beside(rng, &first);
        let (Some(one), Some(two)) = (cleared(&first), cleared(&second)) else { continue };
        let (Ok(book), Ok(other)) = (book::read(&first), book::read(&second)) else { continue };
        let Some(price) = one.price.filter(|_| book.parameters == other.parameters) else { continue };
        if premise(price, &book, &other) {
            holds += 1;
            differ += usize::from(sold(price, &book, &one) != sold(price, &other, &two));
        }
    }
    (holds, differ)
}

fn low(price: u32, book: &Book) -> Vec<book::Offer> {
    at_or_below(price, book).into_iter().map(|(_, offer)| offer.clone()).collect()
}

#[test]
fn the_claim() {
    let (holds, differ) = tried(|price, one, two| low(price, one) == low(price, two));
    assert!(holds > 300, "{holds}");
    assert_eq!(differ, 0);
}

#[test]
fn below_the_price_is_not_enough() {
    let below = |price: u32, book: &Book| if price == 0 { Vec::new() } else { low(price - 1, book) };
    let (holds, differ) = tried(|price, one, two| below(price, one) == below(price, two));
    assert!(holds > 300 && differ > 10, "{holds} {differ}");
}

#[test]
fn other_offers_of_the_second_book_have_to_be_above_the_price() {
    // All offers of the first book at or below the price stand in the second, in their order, which may have others.
    let stand = |price, one: &Book, two: &Book| {
        let mut rest = two.offers.iter();
        low(price, one).iter().all(|offer| rest.any(|other| other == offer))
    };
    let (holds, differ) = tried(stand);
    assert!(holds > 300 && differ > 10, "{holds} {differ}");
}
