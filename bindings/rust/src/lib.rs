//! Clears a capacity auction: an offer book goes in as bytes; cleared megawatts, the price and the make-whole payments come
//! out; such books are written, and how one clears is explained to a person. Every answer is the proved library's own; this crate
//! gives its numbers Rust's types. What is not there is `None`, never 0: a clearing with no price cleared nothing, and an offer
//! whose price is missing is unpriced.
//!
//! ```
//! use ozpinduru::{clear, CentsPerMwDay, Mills, Tenths};
//! let book = std::fs::read("../../examples/reference.book").unwrap();
//! let clearing = clear(&book)?;
//! assert_eq!((clearing.total, clearing.price), (Tenths(10_000), Some(CentsPerMwDay(37_500))));
//! let row = clearing.rows[2];
//! assert_eq!((row.resource, row.cleared, row.committed), (13, Tenths(33), Tenths(50)));
//! assert_eq!(row.make_whole, Mills(637_500));
//! # Ok::<(), ozpinduru::Refusal>(())
//! ```
//!
//! A yearly amount is not taken where a daily one belongs:
//!
//! ```compile_fail
//! let daily: ozpinduru::CentsPerMwDay = ozpinduru::DollarsPerMwYear(146_000);
//! ```

mod book;
mod calendar;
mod clearing;
mod comparison;
mod converting;
mod curve;
mod exact;
mod explaining;
pub mod raw;
mod refusal;
mod text;
mod units;
mod writing;

pub use book::{read, Book, Edition, Offer, Parameters, MOST_ROWS, MOST_STEPS};
pub use calendar::days;
pub use clearing::{clear, clear_into, quote, Clearing, Quote, Row};
pub use comparison::{compare, Comparison};
pub use converting::{convert, convert_into};
pub use curve::{curve, price_at, Curve, Point};
pub use exact::ExactPrice;
pub use explaining::{explain, explain_head, explain_row};
pub use refusal::{Buffer, Field, Refusal};
pub use text::{report, version, words};
pub use units::{CentsPerMwDay, DollarsPerMwYear, Mills, Tenths};
pub use writing::{write, write_into, MOST_BYTES};
