//! The curve of parameters with values missing, of wrong kinds, and out of range.

use crate::compare::same;
use oracle::book::{Book, Fault, Parameters};
use oracle::random::Rng;
use oracle::{exact_price_at, limits, make, ExactPrice, Point};
use ozpinduru::raw::{self, CurvePoints, CurvePrice, Value, NO_VALUE};

/// Compares the curve of a book's parameters, or of those of the reference book, half of the time with values changed; says of
/// which kind the parameters were.
pub fn curve(read: &Result<Book, Fault>, rng: &mut Rng) -> Result<Vec<&'static str>, String> {
    let p = read.as_ref().map_or_else(|_| make::reference(), |book| book.parameters.clone());
    let changed = rng.percent(50);
    let year = if changed && rng.percent(20) { rng.between32(2020, 2035) } else { p.year };
    let lent = [p.cost, p.offset, p.outage, p.requirement, p.margin].map(|number| value(number, changed, rng));
    let [cost, offset, outage, requirement, margin] = lent;
    let asked = raw::Parameters { year, cost, offset, outage, requirement, margin };
    let [cost, offset, outage, requirement, margin] = lent.map(taken);
    let p = Parameters { year, cost, offset, outage, requirement, margin };
    let odd = lent.iter().any(|value| ![raw::GIVEN, raw::MISSING].contains(&value.kind)).then_some("value of another kind");
    let fault = limits::missing(&p).or_else(|| limits::out_of_range(&p));
    let mut kinds = match fault {
        None => drawn(asked, &p.curve(), rng)?,
        Some(fault) => vec![refused(asked, fault, rng)?],
    };
    let by_margin = match fault {
        None => p.by_margin().then_some("curve by a margin"),
        Some((4, 6)) => Some("curve refused by 4 at the margin"),
        Some((5, 6)) => Some("by 5 at the margin"),
        Some(_) => None,
    };
    kinds.extend(odd);
    kinds.extend(by_margin);
    Ok(kinds)
}

/// A value on its way in. One that is missing has any number.
fn value(number: Option<u32>, changed: bool, rng: &mut Rng) -> Value {
    let any = rng.pick(&[0, 1, 1_000, NO_VALUE]);
    match (number, changed && rng.percent(20)) {
        (_, true) => Value { kind: rng.pick(&[0, 2, 3, 4, 4, 5, NO_VALUE]), number: number.unwrap_or(any) },
        (Some(number), false) => Value { kind: raw::GIVEN, number },
        (None, false) => Value { kind: raw::MISSING, number: any },
    }
}

/// What a value is taken for: one of another kind is out of every range.
pub fn taken(value: Value) -> Option<u32> {
    match value.kind {
        raw::GIVEN => Some(value.number),
        raw::MISSING => None,
        _ => Some(NO_VALUE),
    }
}

/// The points, and the price at every corner, between them, and anywhere.
fn drawn(asked: raw::Parameters, points: &[Point; 3], rng: &mut Rng) -> Result<Vec<&'static str>, String> {
    let ([q1, q2, q3], [p1, p2, p3]) = (points.map(|point| point.quantity), points.map(|point| point.price));
    let due = CurvePoints { kind: raw::GIVEN, p1, p2, p3, q1, q2, q3, number: NO_VALUE, place: NO_VALUE };
    // SAFETY: the calls take numbers alone.
    same("the curve", unsafe { raw::ozp_curve(asked) }, due)?;
    let (first, second, any) = (rng.between32(q1, q2), rng.between32(q2, q3), rng.draw() as u32);
    let mut kinds = vec!["curve drawn"];
    kinds.extend((p2 == 0).then_some("second point at price 0"));
    kinds.extend((p1 == p2).then_some("first two points at one price"));
    for k in [0, q1, q1 + 1, first, q2, q2 + 1, second, q3, q3 + 1, any] {
        let price = exact_price_at(points, k);
        // SAFETY: as above.
        same(&format!("the price at {k}"), unsafe { raw::ozp_price_at(asked, k) }, priced(price))?;
        kinds.push(stretch([q1, q2, q3], k));
        kinds.extend(price.filter(|price| price.remainder > 0).map(|_| "remainder over 0"));
    }
    Ok(kinds)
}

fn priced(price: Option<ExactPrice>) -> CurvePrice {
    let no = NO_VALUE;
    match price {
        None => CurvePrice { kind: raw::NONE, cents: no, remainder: no, divisor: no, number: no, place: no },
        Some(ExactPrice { cents, remainder, divisor }) => {
            CurvePrice { kind: raw::GIVEN, cents, remainder, divisor, number: no, place: no }
        }
    }
}

/// The part of a curve that a quantity lies on.
fn stretch(quantities: [u32; 3], k: u32) -> &'static str {
    let stretches = ["price level", "on the first line", "on the second line"];
    quantities.iter().position(|end| k <= *end).map_or("past the last point", |at| stretches[at])
}

fn refused(asked: raw::Parameters, (number, place): Fault, rng: &mut Rng) -> Result<&'static str, String> {
    let no = NO_VALUE;
    let due = CurvePoints { kind: raw::REFUSED, p1: no, p2: no, p3: no, q1: no, q2: no, q3: no, number, place };
    // SAFETY: the calls take numbers alone.
    same("the curve", unsafe { raw::ozp_curve(asked) }, due)?;
    let price = unsafe { raw::ozp_price_at(asked, rng.draw() as u32) };
    let due = CurvePrice { kind: raw::REFUSED, cents: no, remainder: no, divisor: no, number, place };
    same("a price", price, due)?;
    Ok(if number == 4 { "curve refused by 4" } else { "curve refused by 5" })
}
