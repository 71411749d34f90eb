//! Books that are written, into room that is long enough or not.

use crate::compare::{entries, same};
use crate::curve::taken;
use crate::reading::{lent, row};
use oracle::book::{Book, Fault, Offer, Parameters, LONGEST};
use oracle::random::contents::contents;
use oracle::random::Rng;
use ozpinduru::raw::{self, Row, Text, NO_AMOUNT, NO_VALUE};
use ozpinduru::{CentsPerMwDay, DollarsPerMwYear, Edition, Refusal, Tenths};

/// Compares the book that random contents make; then, where the call's own book is read, what was read of it written back. Says
/// of which kind both were.
pub fn write(bytes: &[u8], read: &Result<Book, Fault>, rng: &mut Rng) -> Result<Vec<&'static str>, String> {
    let Book { edition, parameters, offers } = contents(rng);
    let mut asked = (lent(&parameters), offers.iter().map(row).collect());
    let odd = rng.percent(15).then(|| other_kind(rng, &mut asked));
    let (parameters, offers) = (heard(asked.0, &parameters), offers.iter().zip(&asked.1).map(heard_row).collect());
    let due = Book { edition, parameters, offers };
    let mut kinds = written(asked, &due, rng)?;
    kinds.extend(odd);
    if let (None, Some(edition)) = (odd, Edition::of(due.edition)) {
        by_the_crate(edition, &due)?;
    }
    kinds.extend(shown(&due));
    if let Ok(book) = read {
        kinds.push(written_back(bytes, book)?);
    }
    Ok(kinds)
}

/// What is handed over: parameters and rows.
type Asked = (raw::Parameters, Vec<Row>);

/// Gives one value a kind that is neither given nor missing.
fn other_kind(rng: &mut Rng, (p, rows): &mut Asked) -> &'static str {
    let kind = rng.pick(&[0, raw::NONE, raw::REFUSED, 5, NO_VALUE]);
    let (at, in_row) = (rng.index(rows.len().max(1)), rng.percent(60));
    let (mut values, name) = match rows.get_mut(at).filter(|_| in_row) {
        Some(row) => (vec![&mut row.price, &mut row.block], "row value of another kind"),
        None => {
            let values = vec![&mut p.cost, &mut p.offset, &mut p.outage, &mut p.requirement, &mut p.margin];
            (values, "parameter of another kind")
        }
    };
    let which = rng.index(values.len());
    values[which].kind = kind;
    name
}

/// The values that parameters are taken for.
fn heard(p: raw::Parameters, given: &Parameters) -> Parameters {
    let [cost, offset, outage, requirement, margin] = [p.cost, p.offset, p.outage, p.requirement, p.margin].map(taken);
    Parameters { cost, offset, outage, requirement, margin, ..given.clone() }
}

/// The values that a row is taken for.
fn heard_row((offer, row): (&Offer, &Row)) -> Offer {
    Offer { price: taken(row.price), block: taken(row.block), ..offer.clone() }
}

/// Compares the answer, every byte of the room before and after, and the rows, which are only read.
fn written((parameters, rows): Asked, book: &Book, rng: &mut Rng) -> Result<Vec<&'static str>, String> {
    let length = 512 * (1 + rows.len().div_ceil(15));
    let bytes = rng.pick(&[length, length, length + 1, length + 700, LONGEST, length - 1, length / 2, 0]);
    // The room starts at any address, and half of the rooms end with the bytes that are lent.
    let (shift, past) = (rng.index(64), rng.pick(&[0, 64]));
    let before: Vec<u8> = (0..shift + bytes + past).map(|at| (at * 167 + 13) as u8).collect();
    let (mut room, mut kept) = (before.clone(), before);
    let lent = rows.clone();
    // SAFETY: the rows and the room are lent with no more than their lengths.
    let found =
        unsafe { raw::ozp_write(book.edition, parameters, lent.as_ptr(), lent.len(), room[shift..].as_mut_ptr(), bytes) };
    same("whether the rows are unchanged", lent == rows, true)?;
    let mut kinds = Vec::new();
    match oracle::write(book, bytes) {
        Err((number, place)) => {
            same("what is written", found, Text { bytes: NO_AMOUNT, kind: raw::REFUSED, number, place })?;
            kinds.push(refusal(number));
            kinds.extend(step_refused(number, place, book));
        }
        Ok(due) => {
            let count = due.len();
            same("what is written", found, Text { bytes: count as u64, kind: raw::GIVEN, number: NO_VALUE, place: NO_VALUE })?;
            kept[shift..shift + count].copy_from_slice(&due);
            kinds.push(if book.edition == 1 { "written" } else { "written in edition 2" });
            kinds.extend((bytes > count).then_some("room longer than the book"));
        }
    }
    entries("room", &room, &kept)?;
    Ok(kinds)
}

fn refusal(number: u32) -> &'static str {
    match number {
        3 => "not written by 3",
        19 => "not written by 19",
        5 => "not written by 5",
        7 => "not written by 7",
        8 => "not written by 8",
        10 => "not written by 10",
        _ => "not written by 20",
    }
}

/// Which step a row was refused for, if it was: by 7 at a step that a row of its edition cannot have.
fn step_refused(number: u32, place: u32, book: &Book) -> Option<&'static str> {
    let step = book.offers.get(place as usize).filter(|_| number == 7)?.step;
    match step {
        256.. => Some("step of more than 8 bits"),
        2..=10 if book.edition == 1 => Some("step past 1 in edition 1"),
        _ => None,
    }
}

/// What contents show, if anything.
fn shown(book: &Book) -> Vec<&'static str> {
    let Parameters { year, cost, offset, outage, requirement, .. } = book.parameters;
    let missing = [cost, offset, outage, requirement].contains(&None);
    let kinds = [
        (missing, "parameter left out"),
        (book.offers.iter().any(|offer| offer.price.is_none()), "price left out"),
        (year > 65_535, "year of more than 16 bits"),
        (book.offers.is_empty(), "no rows"),
        (book.offers.len() == 600, "600 rows"),
        (book.offers.len() > 600, "more rows than 600"),
    ];
    kinds.into_iter().filter(|(holds, _)| *holds).map(|(_, kind)| kind).collect()
}

/// The same by the Rust crate, and what is read of it again.
fn by_the_crate(edition: Edition, book: &Book) -> Result<(), String> {
    let (parameters, offers) = (given(&book.parameters), book.offers.iter().map(offer).collect::<Vec<_>>());
    let found = ozpinduru::write(edition, &parameters, &offers);
    same_book(&found, &oracle::write(book, LONGEST))?;
    match found {
        Ok(bytes) => same("what is read again", ozpinduru::read(&bytes), Ok(ozpinduru::Book { edition, parameters, offers })),
        Err(_) => Ok(()),
    }
}

/// What was read of a book, written back: its bytes where it is sound, else what keeps it from being sound.
fn written_back(bytes: &[u8], book: &Book) -> Result<&'static str, String> {
    let (edition, offers) = (Edition::of(book.edition), book.offers.iter().map(offer).collect::<Vec<_>>());
    let due = oracle::sound(bytes).map_or_else(|| Ok(bytes.to_vec()), Err);
    same_book(&ozpinduru::write(edition.expect("an edition that is read"), &given(&book.parameters), &offers), &due)?;
    Ok(if due.is_ok() { "written back" } else { "not sound" })
}

/// Compares a book that the Rust crate writes, or its refusal.
fn same_book(found: &Result<Vec<u8>, Refusal>, due: &Result<Vec<u8>, Fault>) -> Result<(), String> {
    let bytes = found.as_ref().map(Vec::len).map_err(|refusal| (refusal.number(), refusal.place()));
    same("the length or the refusal of a book", bytes, due.as_ref().map(Vec::len).map_err(|&fault| fault))?;
    match (found, due) {
        (Ok(found), Ok(due)) => entries("book", found, due),
        _ => Ok(()),
    }
}

fn given(p: &Parameters) -> ozpinduru::Parameters {
    let &Parameters { year, cost, offset, outage, requirement, margin } = p;
    let [cost, offset] = [cost, offset].map(|number| number.map(DollarsPerMwYear));
    ozpinduru::Parameters { year, cost, offset, outage, requirement: requirement.map(Tenths), margin }
}

fn offer(offer: &Offer) -> ozpinduru::Offer {
    let &Offer { resource, seller, price, quantity, block, stamp, step } = offer;
    let (price, quantity, block) = (price.map(CentsPerMwDay), Tenths(quantity), block.map(Tenths));
    ozpinduru::Offer { resource, seller, price, quantity, block, stamp, step }
}
