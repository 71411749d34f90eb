//! Books in the other edition, into room that is long enough or not.

use crate::compare::{entries, same};
use oracle::book::LONGEST;
use oracle::random::Rng;
use ozpinduru::raw::{self, Text, NO_AMOUNT, NO_VALUE};
use ozpinduru::Refusal;

/// Compares the answer, every byte of the room before and after, the same by the Rust crate, and there and back; says of which kind
/// the book was.
pub fn convert(book: &[u8], rng: &mut Rng) -> Result<Vec<&'static str>, String> {
    let length = book.len().min(LONGEST);
    let bytes = rng.pick(&[length, length, length, length + 1, length + 700, LONGEST, length.saturating_sub(1), length / 2, 0]);
    // The room starts at any address, and half of the rooms end with the bytes that are lent.
    let (shift, past) = (rng.index(64), rng.pick(&[0, 64]));
    let before: Vec<u8> = (0..shift + bytes + past).map(|at| (at * 167 + 13) as u8).collect();
    let (mut room, mut kept) = (before.clone(), before);
    // SAFETY: the book and the room are lent with no more than their lengths.
    let found = unsafe { raw::ozp_convert(book.as_ptr(), book.len(), room[shift..].as_mut_ptr(), bytes) };
    let due = oracle::convert(book, bytes);
    match &due {
        Err((number, place)) => {
            same("what is converted", found, Text { bytes: NO_AMOUNT, kind: raw::REFUSED, number: *number, place: *place })?;
        }
        Ok(other) => {
            let count = other.len() as u64;
            same("what is converted", found, Text { bytes: count, kind: raw::GIVEN, number: NO_VALUE, place: NO_VALUE })?;
            kept[shift..shift + other.len()].copy_from_slice(other);
        }
    }
    entries("room", &room, &kept)?;
    by_the_crate(book)?;
    Ok(vec![match due {
        Ok(_) if book[4] == 1 => "converted up",
        Ok(_) => "converted down",
        Err((11, _)) => "not converted by 11",
        Err((20, _)) => "not converted by 20",
        Err(_) => "not converted, not sound",
    }])
}

/// The same by the Rust crate, in room that it makes itself, and back again.
fn by_the_crate(book: &[u8]) -> Result<(), String> {
    let fault = |refusal: Refusal| (refusal.number(), refusal.place());
    let (found, due) = (ozpinduru::convert(book).map_err(fault), oracle::convert(book, LONGEST));
    same("whether the Rust crate converts", found.as_ref().map(Vec::len), due.as_ref().map(Vec::len))?;
    if let (Ok(found), Ok(due)) = (found, due) {
        entries("other edition", &found, &due)?;
        let again = ozpinduru::convert(&found).map_err(|refusal| format!("back again it is {refusal}"))?;
        entries("same edition", &again, book)?;
    }
    Ok(())
}
