//! Times of one call, the library's beside plain Rust's: the best of many batches, taken in turns, in one process.
//!
//! "plain" finds repeats with the standard HashSet and orders ties with a sort; "tuned" has a quicker hash and a selection.

mod books;
mod prices;
mod timing;
mod writing;

use books::{cases, pairs, Case, Pair};
use ozpinduru::{clear_into, raw, Tenths};
use std::hint::black_box;
use timing::best;

const ROOM: usize = ozpinduru::MOST_ROWS;
const NONE: Tenths = Tenths(0);

fn main() {
    let cases = cases();
    println!(
        "{:<42} {:>8} {:>8} {:>6} {:>8} {:>6}  target",
        "microseconds a call", "library", "plain", "ratio", "tuned", "ratio"
    );
    cases.iter().for_each(compare);
    pairs().iter().for_each(compare_pair);
    writing::compare();
    println!();
    prices::compare();
    println!();
    println!("{:<42} {:>8} {:>8} {:>8}", "the library's time, in microseconds, for", "form", "rows", "auction");
    cases.iter().filter(|case| accepted(&case.book)).for_each(stages);
}

/// Keeps a call whose answer nobody reads.
fn done<T>(answer: T) {
    black_box(answer);
}

fn accepted(book: &[u8]) -> bool {
    clear_into(book, &mut [NONE; ROOM], &mut [NONE; ROOM]).is_ok()
}

/// A line of the first table, once all three have given the same answer.
fn compare(case: &Case) {
    let book = &case.book;
    agree(case);
    let (mut a, mut b) = ([NONE; ROOM], [NONE; ROOM]);
    let [(c, d), (e, f)] = &mut [([0; ROOM], [0; ROOM]); 2];
    let times = best([
        &mut || done(clear_into(black_box(book), &mut a, &mut b)),
        &mut || done(plain::clear(black_box(book), c, d)),
        &mut || done(plain::clear_tuned(black_box(book), e, f)),
    ]);
    line(case.name, times, case.target);
}

fn line(name: &str, [library, plain, tuned]: [f64; 3], target: f64) {
    let over_plain = library / plain;
    let met = if over_plain <= target { "met" } else { "missed" };
    println!(
        "{name:<42} {library:>8.3} {plain:>8.3} {over_plain:>6.2} {tuned:>8.3} {:>6.2}  {target:.1} {met}",
        library / tuned
    );
}

/// A line of the first table for two books that are compared, once all three have said the same of them.
fn compare_pair(pair: &Pair) {
    let (first, second) = (&pair.first[..], &pair.second[..]);
    let found = said(ozpinduru::compare(first, second));
    for compare in [plain::compare, plain::compare_tuned] {
        assert_eq!(compare(first, second), found, "{}", pair.name);
    }
    let times = best([
        &mut || done(ozpinduru::compare(black_box(first), black_box(second))),
        &mut || done(plain::compare(black_box(first), black_box(second))),
        &mut || done(plain::compare_tuned(black_box(first), black_box(second))),
    ]);
    line(pair.name, times, pair.target);
}

/// A comparison as plain Rust says it.
fn said(found: ozpinduru::Comparison) -> plain::Comparison {
    let refused = |book, refusal: ozpinduru::Refusal| {
        let (number, place) = (refusal.number(), refusal.place());
        plain::Comparison::Refused { book, number, place }
    };
    match found {
        ozpinduru::Comparison::Applies { price, shared } => plain::Comparison::Applies { price: price.0, shared },
        ozpinduru::Comparison::FirstRefused(refusal) => refused(1, refusal),
        ozpinduru::Comparison::SecondRefused(refusal) => refused(2, refusal),
        ozpinduru::Comparison::NothingClears => plain::Comparison::NothingClears,
        ozpinduru::Comparison::ParametersDiffer(field) => plain::Comparison::ParametersDiffer(field as u32),
        ozpinduru::Comparison::OffersDiffer { row, other } => plain::Comparison::OffersDiffer { row, other },
    }
}

/// A line of the second table. A call that reads a book into no entries is refused once 1 to 3 are ruled out, and one that
/// clears it into none once the rows have passed; so the differences are the times of the stages.
fn stages(case: &Case) {
    let book = &case.book;
    let (mut cleared, mut committed) = ([NONE; ROOM], [NONE; ROOM]);
    let [form, rows, all] =
        best([&mut || done(formed(black_box(book))), &mut || done(clear_into(black_box(book), &mut [], &mut [])), &mut || {
            done(clear_into(black_box(book), &mut cleared, &mut committed))
        }]);
    println!("{:<42} {form:>8.3} {:>8.3} {:>8.3}", case.name, rows - form, all - rows);
}

/// What is said of a book where no entries are lent for its rows.
fn formed(book: &[u8]) -> raw::Contents {
    // SAFETY: the call reads the book within its length, and there are no entries to write.
    unsafe { raw::ozp_read(book.as_ptr(), book.len(), std::ptr::null_mut(), 0) }
}

/// Stops where the three do not give the same answer and the same buffers.
fn agree(case: &Case) {
    let room = || ([7; ROOM], [8; ROOM]);
    let (mut cleared, mut committed) = ([Tenths(7); ROOM], [Tenths(8); ROOM]);
    let answer = match clear_into(&case.book, &mut cleared, &mut committed) {
        Err(refusal) => plain::Outcome::Refused { number: refusal.number(), place: refusal.place() },
        Ok(quote) => plain::Outcome::Cleared(plain::Clearing {
            total: quote.total.0,
            price: quote.price.map(|price| price.0),
            make_whole: quote.make_whole.0,
            daily: quote.daily.0,
            year: quote.year.0,
        }),
    };
    let ours = (cleared.map(|tenths| tenths.0), committed.map(|tenths| tenths.0));
    for clear in [plain::clear, plain::clear_tuned] {
        let mut theirs = room();
        assert_eq!(clear(&case.book, &mut theirs.0, &mut theirs.1), answer, "{}", case.name);
        assert_eq!(theirs, ours, "{}", case.name);
    }
}
