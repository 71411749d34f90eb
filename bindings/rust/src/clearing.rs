//! What a book clears.

use crate::raw;
use crate::{read, CentsPerMwDay, Mills, Refusal, Tenths, MOST_ROWS};

/// What a book clears in all.
#[derive(Clone, Copy, Debug, PartialEq, Eq)]
pub struct Quote {
    pub total: Tenths,
    /// None where nothing clears; `Some(CentsPerMwDay(0))` is a price of nothing.
    pub price: Option<CentsPerMwDay>,
    /// By the day, as `daily`.
    pub make_whole: Mills,
    pub daily: Mills,
    pub year: Mills,
    /// How many rows the book has.
    pub row_count: usize,
}

/// What a book clears in all, and what each row gets.
#[derive(Clone, Debug, PartialEq, Eq)]
pub struct Clearing {
    pub total: Tenths,
    /// None where nothing clears; `Some(CentsPerMwDay(0))` is a price of nothing.
    pub price: Option<CentsPerMwDay>,
    /// By the day, as `daily`.
    pub make_whole: Mills,
    pub daily: Mills,
    pub year: Mills,
    pub rows: Vec<Row>,
}

/// What one offer gets.
#[derive(Clone, Copy, Debug, PartialEq, Eq)]
pub struct Row {
    pub resource: u32,
    /// In a book of the first edition 1.
    pub step: u32,
    pub cleared: Tenths,
    pub committed: Tenths,
    /// By the day.
    pub make_whole: Mills,
}

/// Clears a book; each row of the result has its resource and its step.
pub fn clear(book: &[u8]) -> Result<Clearing, Refusal> {
    let (mut cleared, mut committed) = ([Tenths(0); MOST_ROWS], [Tenths(0); MOST_ROWS]);
    let quote = clear_into(book, &mut cleared, &mut committed)?;
    let offers = read(book)?.offers;
    let amounts = cleared.into_iter().zip(committed);
    let rows = offers.iter().zip(amounts).map(|(offer, (cleared, committed))| {
        let make_whole = quote.make_whole_of(cleared, committed);
        Row { resource: offer.resource, step: offer.step, cleared, committed, make_whole }
    });
    let Quote { total, price, make_whole, daily, year, .. } = quote;
    Ok(Clearing { total, price, make_whole, daily, year, rows: rows.collect() })
}

/// Clears a book into two buffers, with nothing allocated: they receive each row's cleared and committed tenths. Entries past
/// the last row are not touched, and a refusal leaves both buffers as they were.
///
/// ```
/// use ozpinduru::{clear_into, Tenths, MOST_ROWS};
/// let book = std::fs::read("../../examples/reference.book").unwrap();
/// let (mut cleared, mut committed) = ([Tenths(0); MOST_ROWS], [Tenths(0); MOST_ROWS]);
/// let quote = clear_into(&book, &mut cleared, &mut committed)?;
/// assert_eq!(committed[..quote.row_count], [Tenths(9_900), Tenths(67), Tenths(50)]);
/// # Ok::<(), ozpinduru::Refusal>(())
/// ```
#[inline]
pub fn clear_into(book: &[u8], cleared: &mut [Tenths], committed: &mut [Tenths]) -> Result<Quote, Refusal> {
    // SAFETY: the call reads the book and writes the buffers, each within the number that is handed over with it, and keeps
    // none of the pointers. That is part of what is proved of it. Tenths are 32-bit numbers.
    answered(unsafe {
        raw::ozp_clear(
            book.as_ptr(),
            book.len(),
            cleared.as_mut_ptr().cast(),
            cleared.len(),
            committed.as_mut_ptr().cast(),
            committed.len(),
        )
    })
}

/// What a book clears, without the amounts by row.
#[inline]
pub fn quote(book: &[u8]) -> Result<Quote, Refusal> {
    // SAFETY: the call reads the book within its length and keeps no pointer.
    answered(unsafe { raw::ozp_quote(book.as_ptr(), book.len()) })
}

#[inline]
fn answered(answer: raw::Answer) -> Result<Quote, Refusal> {
    let price = match answer.kind {
        raw::GIVEN => Some(CentsPerMwDay(answer.price)),
        raw::NONE => None,
        raw::REFUSED => return Err(Refusal::of(answer.number, answer.place)),
        kind => raw::unknown(kind),
    };
    Ok(Quote {
        total: Tenths(answer.total),
        price,
        make_whole: Mills(answer.make_whole),
        daily: Mills(answer.daily),
        year: Mills(answer.year),
        row_count: answer.rows as usize,
    })
}

impl Quote {
    /// A row's make-whole in mills a day, from its entries of the two buffers.
    pub fn make_whole_of(&self, cleared: Tenths, committed: Tenths) -> Mills {
        let (kind, price) = self.price.map_or((raw::NONE, raw::NO_VALUE), |price| (raw::GIVEN, price.0));
        // SAFETY: the call takes numbers alone, and is defined for all of them.
        Mills(unsafe { raw::ozp_make_whole(kind, price, cleared.0, committed.0) })
    }
}
