//! The whole call in plain Rust, written for speed: what the library is measured against.
//!
//! One pass over the bytes for the checks, one for the layout and the values, one over the offers for their limits and repeats.
//! Then a sort by price, a walk over the sums that finds the total and the price at once, and a division of the one level that
//! clears in part. Nothing is written into the buffers before the whole book is known to be good.
//!
//! `read` and `write` go between a book and what it says: the rows are tested in one pass, and each block is filled and sealed.
//! `convert` copies a sound book with the other edition and its steps, and seals each block again.
//!
//! `clear` finds repeats with the standard HashSet and orders ties with a sort; `clear_tuned` has a quicker hash and a selection.
//! `price_at` is the curve's price at a quantity, between cents.

mod auction;
mod block;
mod book;
mod comparison;
mod contents;
mod converting;
mod curve;
mod manner;
mod parameters;

pub use curve::ExactPrice;

use auction::Auction;
use book::{Book, Offer};
pub use contents::{Contents, Row};
use manner::{Manner, Tuned, Usual};
use parameters::Parameters;

pub use comparison::Comparison;

/// A refusal's number and place.
pub type Fault = (u32, u32);

#[derive(Clone, Copy, Debug, PartialEq, Eq)]
pub enum Outcome {
    Cleared(Clearing),
    Refused { number: u32, place: u32 },
}

/// The total in tenths of a megawatt, the price in cents per MW-day, the other amounts in mills.
#[derive(Clone, Copy, Debug, PartialEq, Eq)]
pub struct Clearing {
    pub total: u32,
    pub price: Option<u32>,
    pub make_whole: u64,
    pub daily: u64,
    pub year: u64,
}

/// Clears a book into two buffers by row. A refusal leaves both as they were; entries past the last row are not touched.
pub fn clear(bytes: &[u8], cleared: &mut [u32], committed: &mut [u32]) -> Outcome {
    outcome(try_clear::<Usual>(bytes, cleared, committed))
}

/// The same, with a quicker hash and a selection in the place of a sort.
pub fn clear_tuned(bytes: &[u8], cleared: &mut [u32], committed: &mut [u32]) -> Outcome {
    outcome(try_clear::<Tuned>(bytes, cleared, committed))
}

/// The parameters of a region as a caller has them, each but the year given or missing.
#[derive(Clone, Copy, Debug)]
pub struct Given {
    pub year: u16,
    pub cost: Option<u32>,
    pub offset: Option<u32>,
    pub outage: Option<u32>,
    pub requirement: Option<u32>,
    pub margin: Option<u32>,
}

/// The price at a quantity of the curve that parameters make, between cents; none past the last point.
pub fn price_at(given: Given, k: u32) -> Result<Option<ExactPrice>, Fault> {
    Ok(Parameters::given(given).curve()?.exact_at(u64::from(k)))
}

/// Whether losers matter between two books.
pub fn compare(first: &[u8], second: &[u8]) -> Comparison {
    comparison::compare::<Usual>(first, second)
}

/// The same, with a quicker hash.
pub fn compare_tuned(first: &[u8], second: &[u8]) -> Comparison {
    comparison::compare::<Tuned>(first, second)
}

/// What a book says, or refusals 1, 2 and 3.
pub fn read(bytes: &[u8]) -> Result<Contents, Fault> {
    Contents::read(bytes)
}

/// Writes a sound book in the other edition into the room, and returns the count of its bytes. A refusal leaves the room.
pub fn convert(bytes: &[u8], room: &mut [u8]) -> Result<usize, Fault> {
    converting::convert::<Usual>(bytes, room)
}

/// The same, with a quicker hash.
pub fn convert_tuned(bytes: &[u8], room: &mut [u8]) -> Result<usize, Fault> {
    converting::convert::<Tuned>(bytes, room)
}

/// Writes the book that says these contents into the room, and returns the count of its bytes. A refusal leaves the room.
pub fn write(contents: &Contents, room: &mut [u8]) -> Result<usize, Fault> {
    contents.write::<Usual>(room)
}

/// The same with a quicker hash.
pub fn write_tuned(contents: &Contents, room: &mut [u8]) -> Result<usize, Fault> {
    contents.write::<Tuned>(room)
}

fn outcome(result: Result<Clearing, Fault>) -> Outcome {
    match result {
        Ok(clearing) => Outcome::Cleared(clearing),
        Err((number, place)) => Outcome::Refused { number, place },
    }
}

fn try_clear<M: Manner>(bytes: &[u8], cleared: &mut [u32], committed: &mut [u32]) -> Result<Clearing, Fault> {
    let book = Book::read(bytes)?;
    let curve = book.parameters.curve()?;
    book.check_offers::<M>()?;
    let count = book.offers.len();
    let cleared = cleared.get_mut(..count).ok_or((9, 1))?;
    let committed = committed.get_mut(..count).ok_or((9, 2))?;

    let auction = Auction::new(&book.offers, &curve);
    auction.divide::<M>(&book.offers, cleared);
    let extra = commit(&book.offers, cleared, committed);
    let price = u64::from(auction.price.unwrap_or(0));
    let make_whole = price * extra;
    let daily = price * u64::from(auction.total) + make_whole;
    Ok(Clearing { total: auction.total, price: auction.price, make_whole, daily, year: days(book.parameters.year) * daily })
}

/// The days of a delivery year, whose February stands in its second calendar year.
fn days(year: u16) -> u64 {
    let next = year + 1;
    let leap = next.is_multiple_of(4) && (!next.is_multiple_of(100) || next.is_multiple_of(400));
    365 + u64::from(leap)
}

/// Fills in what is committed; returns by how much it passes what is cleared.
fn commit(offers: &[Offer], cleared: &[u32], committed: &mut [u32]) -> u64 {
    let mut extra = 0;
    for ((offer, &cleared), committed) in offers.iter().zip(cleared).zip(committed) {
        *committed = if cleared == 0 { 0 } else { cleared.max(offer.block) };
        extra += u64::from(*committed - cleared);
    }
    extra
}
