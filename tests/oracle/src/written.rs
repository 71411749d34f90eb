//! A call and what it gives, for callers in other languages to replay. Numbers are little-endian; what has no value is all ones.
//!
//! - 64 bits each: make-whole, daily, year;
//! - 32 bits each: kind, total, price, number and place, as in include/ozpinduru.h;
//! - 32 bits each: the book's bytes, the entries of the two buffers, the entries that the call fills in each, and the rows that
//!   are read from the book;
//! - the book, the cleared entries that are filled, the committed ones: 32 bits each.

use oracle::random::Call;
use oracle::{book, clear, Clearing, Outcome};

const NO_VALUE: u32 = u32::MAX;
const NO_AMOUNT: u64 = u64::MAX;

pub fn call(call: &Call) -> Vec<u8> {
    let (amounts, answer, rows) = match clear(&call.book, call.cleared_len, call.committed_len) {
        Outcome::Refused { number, place } => ([NO_AMOUNT; 3], [3, NO_VALUE, NO_VALUE, number, place], Vec::new()),
        Outcome::Cleared(Clearing { total, price, make_whole, daily, year, rows }) => {
            let (kind, price) = price.map_or((2, NO_VALUE), |price| (1, price));
            ([make_whole, daily, year], [kind, total, price, NO_VALUE, NO_VALUE], rows)
        }
    };
    let read = book::read(&call.book).map_or(0, |book| book.offers.len());
    let lengths = [call.book.len(), call.cleared_len, call.committed_len, rows.len(), read].map(|length| length as u32);
    let filled = rows.iter().map(|row| row.cleared).chain(rows.iter().map(|row| row.committed));
    let mut bytes: Vec<u8> = amounts.into_iter().flat_map(u64::to_le_bytes).collect();
    bytes.extend(answer.into_iter().chain(lengths).flat_map(u32::to_le_bytes));
    bytes.extend(&call.book);
    bytes.extend(filled.flat_map(u32::to_le_bytes));
    bytes
}
