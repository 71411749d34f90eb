//! Two books compared through the C interface, and what follows where losers don't matter.

use crate::compare::same;
use oracle::book::{self, Book, MOST_OFFERS};
use oracle::comparison::{self, at_or_below, Comparison};
use oracle::random::{pairs, Rng};
use ozpinduru::raw::{self, NO_VALUE};
use ozpinduru::{Field, Refusal};

/// One call of so many is followed by a comparison.
const ONE_OF: usize = 4;

/// Compares a book with one beside it, and says of which kind the pair was.
pub fn pair(first: &[u8], rng: &mut Rng) -> Result<Vec<&'static str>, String> {
    if rng.index(ONE_OF) > 0 {
        return Ok(Vec::new());
    }
    let beside = pairs::beside(rng, first);
    let (one, two) = if rng.percent(90) { (first, &beside[..]) } else { (&beside[..], first) };
    let due = comparison::compare(one, two);
    // SAFETY: both books are lent with their lengths.
    let found = unsafe { raw::ozp_compare(one.as_ptr(), one.len(), two.as_ptr(), two.len()) };
    same("the comparison", found, plain(due))?;
    same("the Rust crate's comparison", ozpinduru::compare(one, two), named(due))?;
    let mut kinds = vec![kind(due)];
    match due {
        Comparison::Applies { price, .. } => kinds.extend(follows(price, one, two)?),
        Comparison::OffersDiffer { .. } if quoted(one) != quoted(two) => kinds.push("answers that differ with offers"),
        _ => {}
    }
    Ok(kinds)
}

/// What the library answers.
fn plain(due: Comparison) -> raw::Comparison {
    let none = raw::Comparison {
        kind: raw::NONE,
        price: NO_VALUE,
        shared: NO_VALUE,
        field: NO_VALUE,
        row: NO_VALUE,
        other: NO_VALUE,
        book: NO_VALUE,
        number: NO_VALUE,
        place: NO_VALUE,
    };
    let row = |row: Option<usize>| row.map_or(NO_VALUE, |row| row as u32);
    match due {
        Comparison::Applies { price, shared } => raw::Comparison { kind: raw::GIVEN, price, shared: shared as u32, ..none },
        Comparison::FirstRefused { number, place } => raw::Comparison { kind: raw::REFUSED, book: 1, number, place, ..none },
        Comparison::SecondRefused { number, place } => raw::Comparison { kind: raw::REFUSED, book: 2, number, place, ..none },
        Comparison::NothingClears => none,
        Comparison::ParametersDiffer { field } => raw::Comparison { kind: raw::DIFFERS, field, ..none },
        Comparison::OffersDiffer { row: one, other } => {
            raw::Comparison { kind: raw::DIFFERS, row: row(one), other: row(other), ..none }
        }
    }
}

/// The same by the Rust crate.
fn named(due: Comparison) -> ozpinduru::Comparison {
    match due {
        Comparison::Applies { price, shared } => {
            ozpinduru::Comparison::Applies { price: ozpinduru::CentsPerMwDay(price), shared }
        }
        Comparison::FirstRefused { number, place } => ozpinduru::Comparison::FirstRefused(Refusal::of(number, place)),
        Comparison::SecondRefused { number, place } => ozpinduru::Comparison::SecondRefused(Refusal::of(number, place)),
        Comparison::NothingClears => ozpinduru::Comparison::NothingClears,
        Comparison::ParametersDiffer { field } => ozpinduru::Comparison::ParametersDiffer(Field::of(field).expect("a field")),
        Comparison::OffersDiffer { row, other } => ozpinduru::Comparison::OffersDiffer { row, other },
    }
}

fn kind(due: Comparison) -> &'static str {
    match due {
        Comparison::Applies { .. } => "losers don't matter",
        Comparison::FirstRefused { .. } => "first refused",
        Comparison::SecondRefused { .. } => "second refused",
        Comparison::NothingClears => "nothing clears",
        Comparison::ParametersDiffer { .. } => "parameters differ",
        Comparison::OffersDiffer { row: Some(_), other: Some(_) } => "offers differ",
        Comparison::OffersDiffer { row: Some(_), .. } => "offer in the first alone",
        Comparison::OffersDiffer { .. } => "offer in the second alone",
    }
}

fn quoted(book: &[u8]) -> Option<(u32, u32)> {
    ozpinduru::quote(book).ok().map(|quote| (quote.total.0, quote.price.map_or(NO_VALUE, |price| price.0)))
}

/// The theorem's conclusion, on the library's own answers: one answer, the same for each offer at or below the price, and nothing
/// for all others.
fn follows(price: u32, one: &[u8], two: &[u8]) -> Result<Vec<&'static str>, String> {
    let (first, second) = (sold(price, one)?, sold(price, two)?);
    same("the answer where losers don't matter", &first.0, &second.0)?;
    same("what shared offers get", &first.1, &second.1)?;
    let books = (book::read(one), book::read(two));
    let (Ok(one), Ok(two)) = books else { return Err("an accepted book is not read".to_string()) };
    Ok(shown(price, &one, &two))
}

/// A price, a total and amounts; and of each offer at or below a price what it cleared, committed and was paid.
type Sold = ((Option<u32>, u32, u64, u64, u64), Vec<(u32, u32, u32, u64)>);

fn sold(price: u32, bytes: &[u8]) -> Result<Sold, String> {
    let clearing = ozpinduru::clear(bytes).map_err(|refusal| format!("a book that was compared is {refusal}"))?;
    let book = book::read(bytes).map_err(|fault| format!("a book that was compared is not read: {fault:?}"))?;
    let low = |row: usize| book.offers[row].price.is_some_and(|asked| asked <= price);
    let rows = |shared: bool| {
        let held = clearing.rows.iter().enumerate().filter(move |(row, _)| low(*row) == shared);
        held.map(|(_, row)| (row.resource, row.cleared.0, row.committed.0, row.make_whole.0))
    };
    if let Some(row) = rows(false).find(|row| (row.1, row.2, row.3) != (0, 0, 0)) {
        return Err(format!("an offer above the price gets {row:?}"));
    }
    let quote = (clearing.price.map(|p| p.0), clearing.total.0, clearing.make_whole.0, clearing.daily.0, clearing.year.0);
    Ok((quote, rows(true).collect()))
}

/// How the books differ though losers don't matter between them.
fn shown(price: u32, one: &Book, two: &Book) -> Vec<&'static str> {
    let rows = |book| at_or_below(price, book).iter().map(|(row, _)| *row).collect::<Vec<usize>>();
    let steps = |book: &Book| book.offers.iter().filter(|offer| offer.step > 1).count();
    let shown = [
        (one.offers.len() < two.offers.len(), "losers added"),
        (one.offers.len() > two.offers.len(), "losers taken out"),
        (one.offers.len() == two.offers.len() && one.offers != two.offers, "losers changed"),
        (rows(one) != rows(two), "shared rows moved"),
        (steps(one) != steps(two), "steps come or go"),
        (one.edition != two.edition, "beside another edition"),
        (one.offers.len().max(two.offers.len()) == MOST_OFFERS, "600 beside"),
    ];
    shown.into_iter().filter(|(holds, _)| *holds).map(|(_, kind)| kind).collect()
}
