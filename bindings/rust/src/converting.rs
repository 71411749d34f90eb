//! Between editions.

use crate::raw;
use crate::writing::counted;
use crate::{Refusal, MOST_BYTES};

/// A sound book in the other edition: one of the first goes up to the second, with step 1 in every row, and one of the second down
/// to the first, where no row has a step of 2 or more. Everything else that it says, and what it clears, stays as it is; there and
/// back the bytes are the same.
///
/// ```
/// use ozpinduru::{convert, read, Edition};
/// let book = std::fs::read("../../examples/reference.book").unwrap();
/// let other = convert(&book)?;
/// assert_eq!((read(&other)?.edition, read(&other)?.offers), (Edition::Second, read(&book)?.offers));
/// assert_eq!(convert(&other)?, book);
/// # Ok::<(), ozpinduru::Refusal>(())
/// ```
pub fn convert(book: &[u8]) -> Result<Vec<u8>, Refusal> {
    let mut other = vec![0; book.len().min(MOST_BYTES)];
    let bytes = convert_into(book, &mut other)?;
    other.truncate(bytes);
    Ok(other)
}

/// Writes the book in the other edition into room that is lent, with nothing allocated, and returns the count of its bytes, which
/// are as many as it had. What stands behind them is not touched, and a refusal leaves the room as it was.
#[inline]
pub fn convert_into(book: &[u8], room: &mut [u8]) -> Result<usize, Refusal> {
    // SAFETY: the call reads the book and writes the room, each within the length that is handed over, and keeps no pointer.
    counted(unsafe { raw::ozp_convert(book.as_ptr(), book.len(), room.as_mut_ptr(), room.len()) })
}
