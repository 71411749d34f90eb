//! Losers don't matter: whether request 05 speaks of two books, or what comes first that keeps it from speaking of them.

use crate::book::{Book, Offer, Parameters, MOST_OFFERS};
use crate::{admitted, settled};

/// Fields count from 1, rows from 0. A row is none where its book has no offer at or below the price more.
#[derive(Clone, Copy, Debug, PartialEq, Eq)]
pub enum Comparison {
    Applies { price: u32, shared: usize },
    FirstRefused { number: u32, place: u32 },
    SecondRefused { number: u32, place: u32 },
    NothingClears,
    ParametersDiffer { field: u32 },
    OffersDiffer { row: Option<usize>, other: Option<usize> },
}

/// "Two accepted books with the same parameters, the first of them with a price", whose "offers at or below that price are the
/// same, row for row in the same order among themselves".
pub fn compare(first: &[u8], second: &[u8]) -> Comparison {
    let one = match admitted(first, MOST_OFFERS, MOST_OFFERS) {
        Ok(book) => book,
        Err((number, place)) => return Comparison::FirstRefused { number, place },
    };
    let two = match admitted(second, MOST_OFFERS, MOST_OFFERS) {
        Ok(book) => book,
        Err((number, place)) => return Comparison::SecondRefused { number, place },
    };
    let Some(price) = settled(&one).price else { return Comparison::NothingClears };
    match differing(&one.parameters, &two.parameters) {
        Some(field) => Comparison::ParametersDiffer { field },
        None => offers(price, &one, &two),
    }
}

/// The first field in which parameters differ.
fn differing(p: &Parameters, q: &Parameters) -> Option<u32> {
    let same = [
        p.year == q.year,
        p.cost == q.cost,
        p.offset == q.offset,
        p.outage == q.outage,
        p.requirement == q.requirement,
        p.margin == q.margin,
    ];
    (1..).zip(same).find(|(_, same)| !same).map(|(field, _)| field)
}

fn offers(price: u32, one: &Book, two: &Book) -> Comparison {
    let (one, two) = (at_or_below(price, one), at_or_below(price, two));
    let agree = |at: &usize| one.get(*at).map(|(_, offer)| offer) == two.get(*at).map(|(_, offer)| offer);
    let first = (0..one.len().max(two.len())).find(|at| !agree(at));
    match first {
        None => Comparison::Applies { price, shared: one.len() },
        Some(at) => Comparison::OffersDiffer { row: one.get(at).map(|(row, _)| *row), other: two.get(at).map(|(row, _)| *row) },
    }
}

/// The offers at or below a price, in order, with their rows.
pub fn at_or_below(price: u32, book: &Book) -> Vec<(usize, &Offer)> {
    book.offers.iter().enumerate().filter(|(_, offer)| offer.price.is_some_and(|asked| asked <= price)).collect()
}
