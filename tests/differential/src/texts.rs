//! Texts in lent room.

use crate::compare::{entries, same};
use oracle::random::Rng;
use ozpinduru::raw::{self, Text, NO_AMOUNT, NO_VALUE};

/// What stands in the room before the call.
const HELD: u8 = 0xA5;

/// Compares the report of a book with what the oracle prints; says whether it fitted.
pub fn report(book: &[u8], rng: &mut Rng) -> Result<Vec<&'static str>, String> {
    let text = oracle::printed(book);
    // SAFETY: the book and the room are lent with no more than their lengths.
    let fitted =
        in_room(&text, raw::REPORT_BYTES, rng, |room, lent| unsafe { raw::ozp_report(book.as_ptr(), book.len(), room, lent) })?;
    Ok(vec![if fitted { "report written" } else { "room too small" }])
}

/// Lends room of some length, up to `most`, to a call that is to write a text; compares its answer, and the room before and after;
/// says whether the text fitted.
pub fn in_room(text: &str, most: usize, rng: &mut Rng, call: impl FnOnce(*mut u8, usize) -> Text) -> Result<bool, String> {
    let length = text.len();
    let lent = rng.pick(&[length, length, length + 9, most, length - 1, length / 2, 0]);
    // Half of the rooms end with the bytes that are lent.
    let mut room = vec![HELD; lent + rng.pick(&[0, 64])];
    let found = call(room.as_mut_ptr(), lent);
    let mut due = vec![HELD; room.len()];
    if lent < length {
        same("the text", found, Text { bytes: NO_AMOUNT, kind: raw::REFUSED, number: 20, place: 0 })?;
    } else {
        due[..length].copy_from_slice(text.as_bytes());
        same("the text", found, Text { bytes: length as u64, kind: raw::GIVEN, number: NO_VALUE, place: NO_VALUE })?;
    }
    entries("room", &room, &due)?;
    Ok(length <= lent)
}
