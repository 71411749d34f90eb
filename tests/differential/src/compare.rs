//! One call through the C interface, beside the oracle's.

use crate::{converting, curve, days, explaining, pairs, reading, texts, writing};
use oracle::random::{Call, Rng};
use oracle::{book, Outcome, Row};
use ozpinduru::raw::{self, Answer, NO_AMOUNT, NO_VALUE};
use std::fmt::Debug;
use std::sync::Barrier;
use std::thread;

/// One call of so many is made by two threads at once.
const TWICE: usize = 32;

/// What the oracle gives for a call, and the kinds of what else was asked.
pub struct Compared {
    pub outcome: Outcome,
    pub kinds: Vec<&'static str>,
}

/// Compares all that a call gives, and what else is said of its book.
pub fn call(call: &Call, seed: u64) -> Result<Compared, String> {
    let outcome = oracle::clear(&call.book, call.cleared_len, call.committed_len);
    let rng = &mut Rng::new(!seed);
    // The book starts at any address, and no more than its own bytes are lent.
    let shift = rng.index(64);
    let mut room = vec![0xA5; shift + call.book.len()];
    room[shift..].copy_from_slice(&call.book);
    let book = &room[shift..];

    // Half of the buffers have entries past the length that is lent, where nothing may be written. The others end with that
    // length, so that valgrind sees an access past it.
    let past = rng.pick(&[0, 16]);
    let compared = || cleared(call, book, past, &outcome);
    if rng.index(TWICE) == 0 {
        twice(compared)?;
    } else {
        compared()?;
    }
    let read = book::read(book);
    let kinds = [
        reading::read(book, &read, rng)?,
        curve::curve(&read, rng)?,
        texts::report(book, rng)?,
        days::days(rng)?,
        pairs::pair(book, rng)?,
        writing::write(book, &read, rng)?,
        converting::convert(book, rng)?,
        explaining::explain(book, &read, rng)?,
    ];
    same("whether the book is unchanged", book == call.book, true)?;
    Ok(Compared { outcome, kinds: kinds.concat() })
}

/// The same in two threads at once.
fn twice(compared: impl Fn() -> Result<(), String> + Sync) -> Result<(), String> {
    let start = Barrier::new(2);
    let once = || {
        start.wait();
        compared()
    };
    thread::scope(|threads| {
        let other = threads.spawn(once);
        once().and(other.join().expect("a thread that compares"))
    })
}

/// The answer, the contents of both buffers and past their ends, each row's make-whole, and the same by the Rust crate.
fn cleared(call: &Call, book: &[u8], past: usize, outcome: &Outcome) -> Result<(), String> {
    let held = || (held(call.cleared_len + past, 1), held(call.committed_len + past, 2));
    let (mut cleared, mut committed) = held();
    // SAFETY: the book and the buffers are lent with no more than their lengths.
    let answer = unsafe {
        let (first, second) = (cleared.as_mut_ptr(), committed.as_mut_ptr());
        raw::ozp_clear(book.as_ptr(), book.len(), first, call.cleared_len, second, call.committed_len)
    };
    same("the answer", answer, due(outcome))?;
    // SAFETY: the book is lent with its length.
    let quote = unsafe { raw::ozp_quote(book.as_ptr(), book.len()) };
    if answer.number != 9 {
        same("the quote", quote, answer)?;
    }
    let (mut cleared_due, mut committed_due) = held();
    if let Outcome::Cleared(clearing) = outcome {
        for (at, row) in clearing.rows.iter().enumerate() {
            (cleared_due[at], committed_due[at]) = (row.cleared, row.committed);
            // SAFETY: the call takes numbers alone.
            let make_whole = unsafe { raw::ozp_make_whole(answer.kind, answer.price, row.cleared, row.committed) };
            same("a row's make-whole", (at, make_whole), (at, row.make_whole))?;
        }
        crate_clears(book, &clearing.rows)?;
    }
    entries("cleared", &cleared, &cleared_due)?;
    entries("committed", &committed, &committed_due)
}

/// What the library answers.
fn due(outcome: &Outcome) -> Answer {
    let none = Answer {
        make_whole: NO_AMOUNT,
        daily: NO_AMOUNT,
        year: NO_AMOUNT,
        kind: raw::REFUSED,
        total: NO_VALUE,
        price: NO_VALUE,
        rows: NO_VALUE,
        number: NO_VALUE,
        place: NO_VALUE,
    };
    match outcome {
        Outcome::Refused { number, place } => Answer { number: *number, place: *place, ..none },
        Outcome::Cleared(c) => {
            let (kind, price) = c.price.map_or((raw::NONE, NO_VALUE), |price| (raw::GIVEN, price));
            let (make_whole, daily, year, rows) = (c.make_whole, c.daily, c.year, c.rows.len() as u32);
            Answer { make_whole, daily, year, kind, total: c.total, price, rows, ..none }
        }
    }
}

/// The rows that the Rust crate makes of a book that clears.
fn crate_clears(book: &[u8], due: &[Row]) -> Result<(), String> {
    let clearing = ozpinduru::clear(book).map_err(|refusal| format!("the Rust crate is {refusal}"))?;
    let row = |row: &ozpinduru::Row| Row {
        resource: row.resource,
        step: row.step,
        cleared: row.cleared.0,
        committed: row.committed.0,
        make_whole: row.make_whole.0,
    };
    let rows: Vec<Row> = clearing.rows.iter().map(row).collect();
    same("the list of rows", &rows[..], due)
}

/// A buffer's contents before the call: at each entry a number of its own.
fn held(entries: usize, buffer: u32) -> Vec<u32> {
    (0..entries as u32).map(|at| 0x5EED_0000 * buffer + at).collect()
}

/// Compares entry by entry, and names the first that differs.
pub fn entries<T: PartialEq + Debug>(buffer: &str, found: &[T], due: &[T]) -> Result<(), String> {
    match (0..due.len()).find(|&at| found[at] != due[at]) {
        Some(at) => same(&format!("entry {at} of the {buffer} buffer"), &found[at], &due[at]),
        None => Ok(()),
    }
}

pub fn same<T: PartialEq + Debug>(what: &str, found: T, due: T) -> Result<(), String> {
    if found == due {
        Ok(())
    } else {
        Err(format!("{what} is {found:?}, and the oracle says {due:?}"))
    }
}
