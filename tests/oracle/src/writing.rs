//! Writing: the book that says given values, or the refusal of values that no sound book says.

use crate::book::{Book, Fault, MOST_OFFERS};
use crate::{limits, make};

/// The bytes of the book, for room of so many bytes: refused by 3 for an edition that is neither 1 nor 2, by 19 for more than 600
/// rows, then by a sound book's tests from 5 on, then by 20 where the room is too small. A missing value is no fault.
pub fn write(book: &Book, room_len: usize) -> Result<Vec<u8>, Fault> {
    if ![1, 2].contains(&book.edition) {
        return Err((3, 0));
    }
    if book.offers.len() > MOST_OFFERS {
        return Err((19, 0));
    }
    if let Some(fault) = limits::out_of_range(&book.parameters).or_else(|| limits::rows(book.edition, &book.offers, false)) {
        return Err(fault);
    }
    fitted(make::bytes(book), room_len)
}

/// A finished book, if the room is large enough for it.
pub(crate) fn fitted(bytes: Vec<u8>, room_len: usize) -> Result<Vec<u8>, Fault> {
    if bytes.len() > room_len {
        Err((20, 0))
    } else {
        Ok(bytes)
    }
}
