//! The C interface itself, as include/ozpinduru.h declares it: the header says each contract in words. A slice is a pointer and
//! a number of entries, no kind is 0, and a field that has no value holds all ones.

/// What was asked for is there.
pub const GIVEN: u32 = 1;
/// There is none.
pub const NONE: u32 = 2;
/// Refused: number and place say why.
pub const REFUSED: u32 = 3;
/// A value that the book or the caller leaves out.
pub const MISSING: u32 = 4;
/// Two books differ: a field, or a row of either, says where.
pub const DIFFERS: u32 = 5;

/// The most bytes of a book.
pub const BOOK_BYTES: usize = 20_992;
/// The most rows of a book.
pub const ROWS: usize = 600;
/// The most steps of a resource.
pub const STEPS: usize = 10;
/// Room for every text of `ozp_report`.
pub const REPORT_BYTES: usize = 32_768;
/// Room for every text of `ozp_words`.
pub const WORDS_BYTES: usize = 256;
/// Room for every page of `ozp_explain`, `ozp_explain_head` and `ozp_explain_row`.
pub const PAGE_BYTES: usize = 98_304;

/// What a field holds that has no value.
pub const NO_VALUE: u32 = u32::MAX;
/// What a 64-bit field holds that has no value.
pub const NO_AMOUNT: u64 = u64::MAX;

/// A struct of the header, by the name that it has there.
macro_rules! structs {
    ($($(#[$doc:meta])* $name:ident { $($field:ident: $type:ty),* $(,)? })*) => {
        $($(#[$doc])*
        #[repr(C)]
        #[derive(Clone, Copy, Debug, PartialEq, Eq)]
        pub struct $name { $(pub $field: $type),* })*

        /// Of each struct the name, the size, the alignment, and each field's name and offset.
        pub fn layouts() -> Vec<(&'static str, usize, usize, Vec<(&'static str, usize)>)> {
            vec![$((
                stringify!($name),
                size_of::<$name>(),
                align_of::<$name>(),
                vec![$((stringify!($field), std::mem::offset_of!($name, $field))),*],
            )),*]
        }
    };
}

structs! {
    /// A value that may be missing.
    Value { kind: u32, number: u32 }
    /// The year, C, E, F, R and the reserve margin.
    Parameters { year: u32, cost: Value, offset: Value, outage: Value, requirement: Value, margin: Value }
    /// A row of a book.
    Row { stamp: u64, resource: u32, seller: u32, quantity: u32, price: Value, block: Value, step: u32 }
    /// What a book clears.
    Answer {
        make_whole: u64, daily: u64, year: u64, kind: u32, total: u32, price: u32, rows: u32, number: u32, place: u32,
    }
    /// The three points of a curve.
    CurvePoints { kind: u32, p1: u32, p2: u32, p3: u32, q1: u32, q2: u32, q3: u32, number: u32, place: u32 }
    /// The price of a curve at a quantity, between cents.
    CurvePrice { kind: u32, cents: u32, remainder: u32, divisor: u32, number: u32, place: u32 }
    /// What a book says.
    Contents { kind: u32, rows: u32, edition: u32, number: u32, place: u32, parameters: Parameters }
    /// The comparison of two books.
    Comparison {
        kind: u32, price: u32, shared: u32, field: u32, row: u32, other: u32, book: u32, number: u32, place: u32,
    }
    /// A text or a book in lent room.
    Text { bytes: u64, kind: u32, number: u32, place: u32 }
}

/// The library has the kinds of its header; another says that this crate and the archive do not belong together.
#[cold]
pub(crate) fn unknown(kind: u32) -> ! {
    unreachable!("kind {kind} is none of ozpinduru.h: is the archive of another version?")
}

extern "C" {
    pub fn ozp_clear(
        book: *const u8,
        book_bytes: usize,
        cleared: *mut u32,
        cleared_entries: usize,
        committed: *mut u32,
        committed_entries: usize,
    ) -> Answer;
    pub fn ozp_quote(book: *const u8, book_bytes: usize) -> Answer;
    pub fn ozp_read(book: *const u8, book_bytes: usize, rows: *mut Row, row_entries: usize) -> Contents;
    pub fn ozp_write(
        edition: u32,
        parameters: Parameters,
        rows: *const Row,
        row_entries: usize,
        room: *mut u8,
        room_bytes: usize,
    ) -> Text;
    pub fn ozp_convert(book: *const u8, book_bytes: usize, room: *mut u8, room_bytes: usize) -> Text;
    pub fn ozp_compare(first: *const u8, first_bytes: usize, second: *const u8, second_bytes: usize) -> Comparison;
    pub fn ozp_curve(parameters: Parameters) -> CurvePoints;
    pub fn ozp_price_at(parameters: Parameters, k: u32) -> CurvePrice;
    pub fn ozp_make_whole(kind: u32, price: u32, cleared: u32, committed: u32) -> u64;
    pub fn ozp_days(year: u32) -> u32;
    pub fn ozp_report(book: *const u8, book_bytes: usize, room: *mut u8, room_bytes: usize) -> Text;
    pub fn ozp_explain(book: *const u8, book_bytes: usize, room: *mut u8, room_bytes: usize) -> Text;
    pub fn ozp_explain_head(book: *const u8, book_bytes: usize, room: *mut u8, room_bytes: usize) -> Text;
    pub fn ozp_explain_row(book: *const u8, book_bytes: usize, row: usize, room: *mut u8, room_bytes: usize) -> Text;
    pub fn ozp_words(number: u32, room: *mut u8, room_bytes: usize) -> Text;
    pub fn ozp_version() -> u32;
}
