//! What the library says in words.

use crate::raw;

/// The text that the program `clear` prints for these bytes; a refusal is a text too.
///
/// ```
/// assert_eq!(ozpinduru::report(b"no book"), "refused 1 0\n");
/// ```
pub fn report(book: &[u8]) -> String {
    // SAFETY: the call reads the book and writes the room, each within the length that is handed over, and keeps no pointer.
    written(raw::REPORT_BYTES, |room| unsafe { raw::ozp_report(book.as_ptr(), book.len(), room.as_mut_ptr(), room.len()) })
        .expect("every report fits its room")
}

/// The words of a refusal number: when it is given and, after a semicolon, what its place is. None for a number that no refusal
/// has.
///
/// ```
/// assert_eq!(ozpinduru::words(6).unwrap(), "an offer has no price; the row");
/// assert_eq!(ozpinduru::words(0), None);
/// ```
pub fn words(number: u32) -> Option<String> {
    // SAFETY: the call writes the room within the length that is handed over, and keeps no pointer.
    written(raw::WORDS_BYTES, |room| unsafe { raw::ozp_words(number, room.as_mut_ptr(), room.len()) })
}

/// The library's version: major, minor, patch.
pub fn version() -> (u32, u32, u32) {
    // SAFETY: the call takes nothing.
    let version = unsafe { raw::ozp_version() };
    (version / 1_000_000, version / 1_000 % 1_000, version % 1_000)
}

/// The text that a call writes into room of so many bytes, if there is one.
pub(crate) fn written(bytes: usize, call: impl FnOnce(&mut [u8]) -> raw::Text) -> Option<String> {
    let mut room = vec![0; bytes];
    let text = call(&mut room);
    (text.kind == raw::GIVEN).then(|| String::from_utf8_lossy(&room[..text.bytes as usize]).into_owned())
}
