//! What a book says.

use crate::raw;
use crate::{CentsPerMwDay, DollarsPerMwYear, Refusal, Tenths};

/// The most rows that a book has: buffers of so many entries are long enough for every book.
pub const MOST_ROWS: usize = raw::ROWS;

/// The most steps that a resource has.
pub const MOST_STEPS: u32 = raw::STEPS as u32;

/// The edition of a book: the second has a step in every row, and the first reads as having step 1 throughout.
#[derive(Clone, Copy, Debug, PartialEq, Eq, PartialOrd, Ord, Hash)]
pub enum Edition {
    First = 1,
    Second = 2,
}

impl Edition {
    /// The edition of a number.
    pub fn of(number: u32) -> Option<Edition> {
        [Edition::First, Edition::Second].into_iter().find(|edition| *edition as u32 == number)
    }
}

/// The parameters of a region; what is missing is none.
#[derive(Clone, Copy, Debug, PartialEq, Eq)]
pub struct Parameters {
    /// The first calendar year of the delivery year.
    pub year: u32,
    /// The cost of new entry C.
    pub cost: Option<DollarsPerMwYear>,
    /// The revenue offset E.
    pub offset: Option<DollarsPerMwYear>,
    /// EFORd, in hundredths of a percent.
    pub outage: Option<u32>,
    /// The reliability requirement R.
    pub requirement: Option<Tenths>,
    /// The installed reserve margin, in hundredths of a percent: a year from 2022 to 2025 needs one, and no other year has any.
    pub margin: Option<u32>,
}

/// The values of an offer, as its own bytes hold them.
#[derive(Clone, Copy, Debug, PartialEq, Eq)]
pub struct Offer {
    pub resource: u32,
    pub seller: u32,
    /// None where no price is entered; `Some(CentsPerMwDay(0))` is an offer at zero.
    pub price: Option<CentsPerMwDay>,
    pub quantity: Tenths,
    /// The minimum block; none where the offer is flexible.
    pub block: Option<Tenths>,
    pub stamp: u64,
    /// From 1 to [`MOST_STEPS`]; in the first edition 1. A resource's steps stand in neighbouring rows, counted up from 1, prices
    /// never falling, and only step 1 may have a minimum block.
    pub step: u32,
}

/// The edition of a book, its parameters and its offers, row by row.
#[derive(Clone, Debug, PartialEq, Eq)]
pub struct Book {
    pub edition: Edition,
    pub parameters: Parameters,
    pub offers: Vec<Offer>,
}

/// What a book says, for every book that passes 1 to 3, with its values in range or not.
///
/// ```
/// let bytes = std::fs::read("../../examples/reference.book").unwrap();
/// let book = ozpinduru::read(&bytes)?;
/// assert_eq!(book.parameters.cost, Some(ozpinduru::DollarsPerMwYear(146_000)));
/// assert_eq!((book.offers[2].resource, book.offers[2].block), (13, Some(ozpinduru::Tenths(50))));
/// assert_eq!((book.edition, book.offers[2].step), (ozpinduru::Edition::First, 1));
/// # Ok::<(), ozpinduru::Refusal>(())
/// ```
pub fn read(book: &[u8]) -> Result<Book, Refusal> {
    let mut rows: Vec<raw::Row> = Vec::with_capacity(MOST_ROWS);
    // SAFETY: the call reads the book and writes the rows, each within the number that is handed over with it, and keeps no
    // pointer. It fills as many rows from the first on as it says.
    let contents = unsafe {
        let contents = raw::ozp_read(book.as_ptr(), book.len(), rows.as_mut_ptr(), MOST_ROWS);
        rows.set_len(if contents.kind == raw::GIVEN { contents.rows as usize } else { 0 });
        contents
    };
    match contents.kind {
        raw::REFUSED => Err(Refusal::of(contents.number, contents.place)),
        raw::GIVEN => Ok(Book {
            edition: Edition::of(contents.edition).expect("a book that is read has edition 1 or 2"),
            parameters: contents.parameters.into(),
            offers: rows.into_iter().map(Offer::from).collect(),
        }),
        kind => raw::unknown(kind),
    }
}

/// A value by its kind: given or missing.
fn given(value: raw::Value) -> Option<u32> {
    (value.kind == raw::GIVEN).then_some(value.number)
}

#[inline]
fn lent(value: Option<u32>) -> raw::Value {
    value.map_or(raw::Value { kind: raw::MISSING, number: raw::NO_VALUE }, |number| raw::Value { kind: raw::GIVEN, number })
}

impl From<raw::Parameters> for Parameters {
    fn from(p: raw::Parameters) -> Parameters {
        Parameters {
            year: p.year,
            cost: given(p.cost).map(DollarsPerMwYear),
            offset: given(p.offset).map(DollarsPerMwYear),
            outage: given(p.outage),
            requirement: given(p.requirement).map(Tenths),
            margin: given(p.margin),
        }
    }
}

impl From<Parameters> for raw::Parameters {
    fn from(p: Parameters) -> raw::Parameters {
        raw::Parameters {
            year: p.year,
            cost: lent(p.cost.map(|dollars| dollars.0)),
            offset: lent(p.offset.map(|dollars| dollars.0)),
            outage: lent(p.outage),
            requirement: lent(p.requirement.map(|tenths| tenths.0)),
            margin: lent(p.margin),
        }
    }
}

impl From<&Offer> for raw::Row {
    #[inline]
    fn from(offer: &Offer) -> raw::Row {
        raw::Row {
            stamp: offer.stamp,
            resource: offer.resource,
            seller: offer.seller,
            quantity: offer.quantity.0,
            price: lent(offer.price.map(|cents| cents.0)),
            block: lent(offer.block.map(|tenths| tenths.0)),
            step: offer.step,
        }
    }
}

impl From<raw::Row> for Offer {
    fn from(row: raw::Row) -> Offer {
        Offer {
            resource: row.resource,
            seller: row.seller,
            price: given(row.price).map(CentsPerMwDay),
            quantity: Tenths(row.quantity),
            block: given(row.block).map(Tenths),
            stamp: row.stamp,
            step: row.step,
        }
    }
}
