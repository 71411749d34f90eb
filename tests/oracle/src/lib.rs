//! The outline's rules written a second time, apart from the library, so that answers can be compared.
//!
//! - `clear`: the whole call, from bytes to cleared amounts and payments, or a refusal.
//! - `sound`: the first fault of a book whose missing values are no fault.
//! - `printed`: what the program `clear` prints for a book.
//! - `row`: what the reader hands back for a row.
//! - `write`: the book that says given values, or a refusal.
//! - `convert`: a sound book in the other edition, or a refusal.
//! - `curve`, `curve_by_margin`, `price_at`, `exact_price_at`: the requirement curve, and its price in whole cents and between them.
//! - `comparison::compare`: whether losers matter between two books.
//!
//! The rest by module: `book` reads and checks bytes, `parameters` selects the curve, `limits` holds the ranges, `calendar` the
//! days of delivery years, `clearing` is the auction as a function of a falling curve and priced offers, `make` writes books,
//! sound or not, `writing` refuses what no sound book says, `converting` goes between editions, `random` makes books, calls and contents from a seed.
//!
//! Every sentence of the outline is written as directly as it can be read. Speed comes second. `cargo test --release` here runs
//! the outline's cases, an exhaustive search over small auctions, and the books of crates/verdicts/data.

pub mod book;
pub mod calendar;
pub mod clearing;
pub mod comparison;
pub mod converting;
pub mod curve;
pub mod exact;
pub mod limits;
pub mod make;
pub mod parameters;
pub mod random;
pub mod writing;

pub use converting::convert;
pub use curve::{curve, curve_by_margin, price_at, Point};
pub use exact::{exact_price_at, ExactPrice};
pub use writing::write;

use clearing::Priced;

/// The result of a call.
#[derive(Clone, Debug, PartialEq, Eq)]
pub enum Outcome {
    Cleared(Clearing),
    Refused { number: u32, place: u32 },
}

/// Quantities in tenths of a megawatt, the price in cents per MW-day, the other amounts in mills.
#[derive(Clone, Debug, PartialEq, Eq)]
pub struct Clearing {
    pub total: u32,
    pub price: Option<u32>,
    pub make_whole: u64,
    pub daily: u64,
    pub year: u64,
    pub rows: Vec<Row>,
}

/// What one offer gets.
#[derive(Clone, Debug, PartialEq, Eq)]
pub struct Row {
    pub resource: u32,
    pub step: u32,
    pub cleared: u32,
    pub committed: u32,
    pub make_whole: u64,
}

/// Clears a book, with two result buffers of the given lengths.
pub fn clear(bytes: &[u8], cleared_len: usize, committed_len: usize) -> Outcome {
    match admitted(bytes, cleared_len, committed_len) {
        Ok(book) => Outcome::Cleared(settled(&book)),
        Err((number, place)) => Outcome::Refused { number, place },
    }
}

/// The first fault of soundness, if there is one.
pub fn sound(bytes: &[u8]) -> Option<book::Fault> {
    match book::read(bytes) {
        Ok(book) => limits::out_of_range(&book.parameters).or_else(|| limits::rows(book.edition, &book.offers, false)),
        Err(fault) => Some(fault),
    }
}

/// The 32 bytes of a row, or nothing: for a row that isn't there and for a book refused by 1 to 3.
pub fn row(bytes: &[u8], row: usize) -> &[u8] {
    match book::read(bytes) {
        Ok(book) if row < book.offers.len() => book::place(bytes, row),
        _ => &[],
    }
}

/// What the program `clear` prints.
pub fn printed(bytes: &[u8]) -> String {
    match clear(bytes, book::MOST_OFFERS, book::MOST_OFFERS) {
        Outcome::Refused { number, place } => format!("refused {number} {place}\n"),
        Outcome::Cleared(clearing) => lines(&clearing),
    }
}

fn lines(clearing: &Clearing) -> String {
    let price = clearing.price.map_or("-".to_string(), |price| price.to_string());
    let mut text = format!("cleared {}\nprice {}\n", clearing.total, price);
    for row in &clearing.rows {
        text += &format!("{} {} {} {}\n", row.resource, row.cleared, row.committed, row.make_whole);
    }
    text + &format!("daily {}\nyear {}\n", clearing.daily, clearing.year)
}

/// The book, if nothing refuses it. The order is the table's.
fn admitted(bytes: &[u8], cleared_len: usize, committed_len: usize) -> Result<book::Book, book::Fault> {
    let book = book::read(bytes)?;
    let fault = limits::missing(&book.parameters)
        .or_else(|| limits::out_of_range(&book.parameters))
        .or_else(|| limits::rows(book.edition, &book.offers, true))
        .or_else(|| limits::buffers(book.offers.len(), cleared_len, committed_len));
    match fault {
        Some(fault) => Err(fault),
        None => Ok(book),
    }
}

/// Clears and pays an admitted book.
fn settled(book: &book::Book) -> Clearing {
    let points = book.parameters.curve();
    let price_at = |k| price_at(&points, k).expect("a quantity up to the last point");
    let offers: Vec<Priced> = book.offers.iter().map(priced).collect();
    let total = clearing::total(price_at, points[2].quantity, &offers);
    let price = clearing::price(price_at, total, &offers);
    let amounts = clearing::amounts(total, &offers);
    let rows: Vec<Row> = book.offers.iter().zip(amounts).map(|(offer, cleared)| paid(offer, cleared, price)).collect();
    let make_whole = rows.iter().map(|row| row.make_whole).sum();
    let daily = u64::from(price.unwrap_or(0)) * u64::from(total) + make_whole;
    Clearing { total, price, make_whole, daily, year: calendar::days(book.parameters.year) * daily, rows }
}

fn priced(offer: &book::Offer) -> Priced {
    let price = offer.price.expect("an admitted offer has a price");
    Priced { price, quantity: offer.quantity, stamp: offer.stamp, resource: offer.resource, step: offer.step }
}

/// Commitment and make-whole of one offer. With no price nothing has cleared, so nothing is committed or paid.
fn paid(offer: &book::Offer, cleared: u32, price: Option<u32>) -> Row {
    let committed = match offer.block {
        Some(block) if cleared != 0 && block > cleared => block,
        _ => cleared,
    };
    let make_whole = price.map_or(0, |price| u64::from(price) * u64::from(committed - cleared));
    Row { resource: offer.resource, step: offer.step, cleared, committed, make_whole }
}
