//! What a book says, into an array that is long enough or not.

use crate::compare::{entries, same};
use oracle::book::{Book, Fault, Offer, Parameters};
use oracle::random::Rng;
use ozpinduru::raw::{self, Contents, Row, Value, NO_VALUE};

/// Compares what is read of a book, and the entries before and after; says of which kind the call was.
pub fn read(book: &[u8], due: &Result<Book, Fault>, rng: &mut Rng) -> Result<Vec<&'static str>, String> {
    let count = due.as_ref().map_or(15, |book| book.offers.len());
    let lent = rng.pick(&[count, count, count + 7, 600, count.saturating_sub(1), count / 2, 0]);
    // Half of the arrays end with the entries that are lent.
    let before: Vec<Row> = (0..lent + rng.pick(&[0, 3])).map(held).collect();
    let mut rows = before.clone();
    // SAFETY: the book and the rows are lent with no more than their lengths.
    let contents = unsafe { raw::ozp_read(book.as_ptr(), book.len(), rows.as_mut_ptr(), lent) };
    let (kind, contents_due, filled) = match due {
        Err(fault) => ("not read", refused(*fault), Vec::new()),
        Ok(_) if lent < count => ("array too short", refused((9, 1)), Vec::new()),
        Ok(book) => ("read", given(book), book.offers.iter().map(row).collect()),
    };
    same("what the book says", contents, contents_due)?;
    let rest = before[filled.len()..].to_vec();
    entries("row", &rows, &[filled, rest].concat())?;
    Ok(vec![kind])
}

/// An entry before the call, with numbers of its own.
fn held(at: usize) -> Row {
    let number = 0x5EED_0000 + at as u32;
    let value = Value { kind: number, number: !number };
    let stamp = !u64::from(number);
    Row { stamp, resource: number, seller: !number, quantity: number, price: value, block: value, step: number }
}

fn refused((number, place): Fault) -> Contents {
    let none = Value { kind: raw::NONE, number: NO_VALUE };
    let parameters =
        raw::Parameters { year: NO_VALUE, cost: none, offset: none, outage: none, requirement: none, margin: none };
    Contents { kind: raw::REFUSED, rows: NO_VALUE, edition: NO_VALUE, number, place, parameters }
}

fn given(book: &Book) -> Contents {
    let (rows, edition, parameters) = (book.offers.len() as u32, book.edition, lent(&book.parameters));
    Contents { kind: raw::GIVEN, rows, edition, number: NO_VALUE, place: NO_VALUE, parameters }
}

/// Parameters as they come out, and as they may go in again.
pub fn lent(p: &Parameters) -> raw::Parameters {
    let &Parameters { year, cost, offset, outage, requirement, margin } = p;
    let [cost, offset, outage, requirement, margin] = [cost, offset, outage, requirement, margin].map(value);
    raw::Parameters { year, cost, offset, outage, requirement, margin }
}

pub fn row(offer: &Offer) -> Row {
    let &Offer { resource, seller, price, quantity, block, stamp, step } = offer;
    Row { stamp, resource, seller, quantity, price: value(price), block: value(block), step }
}

/// A value on its way out.
fn value(number: Option<u32>) -> Value {
    number.map_or(Value { kind: raw::MISSING, number: NO_VALUE }, |number| Value { kind: raw::GIVEN, number })
}
