//! Whether losers matter between two books.

use crate::raw;
use crate::{CentsPerMwDay, Field, Refusal};

/// What a comparison of two books says. Rows count from 0.
#[derive(Clone, Copy, Debug, PartialEq, Eq)]
pub enum Comparison {
    /// Losers don't matter: both books have the same parameters, and the same offers at or below the first book's price,
    /// `shared` of them, in the same order among themselves. So both have the same answer, and each shared offer gets the same.
    Applies {
        price: CentsPerMwDay,
        shared: usize,
    },
    FirstRefused(Refusal),
    SecondRefused(Refusal),
    /// Nothing clears in the first book, so that it has no price to compare to.
    NothingClears,
    /// The parameters differ: the first field that does.
    ParametersDiffer(Field),
    /// The first offers at or below the price that differ: the row in the first book and in the second. There is none where a
    /// book has no such offer more.
    OffersDiffer {
        row: Option<usize>,
        other: Option<usize>,
    },
}

/// Compares two books.
///
/// ```
/// use ozpinduru::{compare, CentsPerMwDay, Comparison};
/// let book = std::fs::read("../../examples/reference.book").unwrap();
/// assert_eq!(compare(&book, &book), Comparison::Applies { price: CentsPerMwDay(37_500), shared: 3 });
/// ```
pub fn compare(first: &[u8], second: &[u8]) -> Comparison {
    // SAFETY: the call reads both books within their lengths and keeps no pointer.
    let found = unsafe { raw::ozp_compare(first.as_ptr(), first.len(), second.as_ptr(), second.len()) };
    let row = |row: u32| (row != raw::NO_VALUE).then_some(row as usize);
    match found.kind {
        raw::GIVEN => Comparison::Applies { price: CentsPerMwDay(found.price), shared: found.shared as usize },
        raw::NONE => Comparison::NothingClears,
        raw::REFUSED if found.book == 1 => Comparison::FirstRefused(Refusal::of(found.number, found.place)),
        raw::REFUSED => Comparison::SecondRefused(Refusal::of(found.number, found.place)),
        raw::DIFFERS => match Field::of(found.field) {
            Some(field) => Comparison::ParametersDiffer(field),
            None => Comparison::OffersDiffer { row: row(found.row), other: row(found.other) },
        },
        kind => raw::unknown(kind),
    }
}
