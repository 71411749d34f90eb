//! What the cases ask of a book.

use oracle::book::{Offer, Parameters};
use oracle::make::{book, reference};
use oracle::{clear, Clearing, Outcome};

pub fn cleared(parameters: &Parameters, offers: &[Offer]) -> Clearing {
    match clear(&book(parameters, offers), offers.len(), offers.len()) {
        Outcome::Cleared(clearing) => clearing,
        refused => panic!("{refused:?}"),
    }
}

pub fn refused(parameters: &Parameters, offers: &[Offer]) -> (u32, u32) {
    match clear(&book(parameters, offers), offers.len(), offers.len()) {
        Outcome::Refused { number, place } => (number, place),
        clearing => panic!("{clearing:?}"),
    }
}

/// The total, the price and the cleared amounts of a book with the reference parameters.
pub fn result(offers: &[Offer]) -> (u32, Option<u32>, Vec<u32>) {
    let clearing = cleared(&reference(), offers);
    (clearing.total, clearing.price, clearing.rows.iter().map(|row| row.cleared).collect())
}

pub fn amounts(offers: &[Offer]) -> Vec<u32> {
    result(offers).2
}

pub fn with_block(offer: Offer, block: u32) -> Offer {
    Offer { block: Some(block), ..offer }
}
