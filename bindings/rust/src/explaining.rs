//! The page of a book, for a person.

use crate::raw;
use crate::text::written;

/// The page of a book: what it states, its answer, the curve, where the total stops and why, what sets the price, the price levels
/// around it, how the level that is divided is divided, and its rows, up to 15 of them each in full, more of them each in a line; or
/// why it is refused, and what it lacks. A refused book has a page too. No line has more than 80 letters.
///
/// ```
/// let book = std::fs::read("../../examples/reference.book").unwrap();
/// let page = ozpinduru::explain(&book);
/// assert!(page.starts_with("The book states\n  delivery year          2026\n"));
/// assert!(page.contains("\nThe price is 375.00 dollars per MW-day\n"));
/// assert!(ozpinduru::explain(b"no book").starts_with("refused 1 at 0\n  the length is 7 bytes\n"));
/// ```
pub fn explain(book: &[u8]) -> String {
    // SAFETY: the call reads the book and writes the room, each within the length that is handed over, and keeps no pointer.
    written(raw::PAGE_BYTES, |room| unsafe { raw::ozp_explain(book.as_ptr(), book.len(), room.as_mut_ptr(), room.len()) })
        .expect("every page fits its room")
}

/// The head of that page: all of it but the rows. Of a refused book it is the whole page.
///
/// ```
/// let book = std::fs::read("../../examples/reference.book").unwrap();
/// assert!(ozpinduru::explain(&book).starts_with(&ozpinduru::explain_head(&book)));
/// ```
pub fn explain_head(book: &[u8]) -> String {
    // SAFETY: the call reads the book and writes the room, each within the length that is handed over, and keeps no pointer.
    written(raw::PAGE_BYTES, |room| unsafe { raw::ozp_explain_head(book.as_ptr(), book.len(), room.as_mut_ptr(), room.len()) })
        .expect("every head fits its room")
}

/// The page of one row, in full whatever the number of rows: its offer, its part of its price level, its turn for a spare tenth,
/// what it clears and commits, and why it is paid or not. Of a book that is refused by 4 to 10 it is the row's offer, and its values
/// with their ranges. None where the book has no such row, or is refused by 1 to 3.
///
/// ```
/// use ozpinduru::explain_row;
/// let book = std::fs::read("../../examples/reference.book").unwrap();
/// assert!(explain_row(&book, 2).unwrap().starts_with("row 2, resource 13: 10.0 MW at 375.00\n"));
/// assert_eq!((explain_row(&book, 3), explain_row(b"no book", 0)), (None, None));
/// ```
pub fn explain_row(book: &[u8], row: usize) -> Option<String> {
    // SAFETY: the call reads the book and writes the room, each within the length that is handed over, and keeps no pointer.
    written(raw::PAGE_BYTES, |room| unsafe {
        raw::ozp_explain_row(book.as_ptr(), book.len(), row, room.as_mut_ptr(), room.len())
    })
}
