//! Writing books.

use crate::raw;
use crate::{Edition, Offer, Parameters, Refusal, MOST_ROWS};
use std::mem::MaybeUninit;

/// The most bytes that a book has: room of so many is long enough for every book.
pub const MOST_BYTES: usize = raw::BOOK_BYTES;

/// The book of an edition that says these parameters and offers. What is missing is written as missing; a value out of range is
/// refused, and so are a resource that stands in an earlier row and a step that does not follow the one before it.
/// [`crate::read`] gives back what was written.
///
/// ```
/// let bytes = std::fs::read("../../examples/reference.book").unwrap();
/// let book = ozpinduru::read(&bytes)?;
/// assert_eq!(ozpinduru::write(book.edition, &book.parameters, &book.offers)?, bytes);
/// # Ok::<(), ozpinduru::Refusal>(())
/// ```
pub fn write(edition: Edition, parameters: &Parameters, offers: &[Offer]) -> Result<Vec<u8>, Refusal> {
    let mut book = vec![0; bytes_of(offers.len())];
    let bytes = write_into(edition, parameters, offers, &mut book)?;
    book.truncate(bytes);
    Ok(book)
}

/// Writes the book into room that is lent, with nothing allocated, and returns the count of its bytes. What stands behind them is
/// not touched, and a refusal leaves the room as it was.
///
/// ```
/// use ozpinduru::{write_into, Refusal, MOST_BYTES};
/// let book = ozpinduru::read(&std::fs::read("../../examples/reference.book").unwrap())?;
/// let mut room = [0; MOST_BYTES];
/// assert_eq!(write_into(book.edition, &book.parameters, &book.offers, &mut room)?, 1_024);
/// let less = &mut room[..1_023];
/// assert_eq!(write_into(book.edition, &book.parameters, &book.offers, less), Err(Refusal::ShortRoom));
/// # Ok::<(), ozpinduru::Refusal>(())
/// ```
#[inline]
pub fn write_into(edition: Edition, parameters: &Parameters, offers: &[Offer], room: &mut [u8]) -> Result<usize, Refusal> {
    // One row more than a book may have: however many offers there are, the call is refused by so many.
    let mut rows = [const { MaybeUninit::<raw::Row>::uninit() }; MOST_ROWS + 1];
    let count = offers.len().min(rows.len());
    for (row, offer) in rows.iter_mut().zip(offers) {
        row.write(offer.into());
    }
    // SAFETY: the call reads as many rows as are filled and writes the room within its length, and keeps no pointer.
    counted(unsafe {
        let parameters = (*parameters).into();
        raw::ozp_write(edition as u32, parameters, rows.as_ptr().cast(), count, room.as_mut_ptr(), room.len())
    })
}

/// The count of the bytes that a call has written.
#[inline]
pub(crate) fn counted(text: raw::Text) -> Result<usize, Refusal> {
    match text.kind {
        raw::GIVEN => Ok(text.bytes as usize),
        raw::REFUSED => Err(Refusal::of(text.number, text.place)),
        kind => raw::unknown(kind),
    }
}

/// The bytes of a book of so many offers, fifteen to a block; no more than any book has.
fn bytes_of(offers: usize) -> usize {
    (512 * (1 + offers.div_ceil(15))).min(MOST_BYTES)
}
