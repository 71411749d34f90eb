//! Between editions.

use crate::book::{read, Book, Fault};
use crate::writing::fitted;
use crate::{make, sound};

/// A sound book in the other edition, for room of so many bytes: refused by the book's own fault if it isn't sound, by 11 at the
/// first row with a step of 2 or more where it would go down to edition 1, then by 20 where the room is too small.
pub fn convert(bytes: &[u8], room_len: usize) -> Result<Vec<u8>, Fault> {
    let book = sound(bytes).map_or_else(|| read(bytes), Err)?;
    match book.offers.iter().position(|offer| offer.step >= 2) {
        Some(row) => Err((11, row as u32)),
        None => fitted(make::bytes(&Book { edition: 3 - book.edition, ..book }), room_len),
    }
}
