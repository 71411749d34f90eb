//! The requirement curve.

use crate::raw;
use crate::{CentsPerMwDay, ExactPrice, Parameters, Refusal, Tenths};

/// The three points of a curve.
#[derive(Clone, Copy, Debug, PartialEq, Eq)]
pub struct Curve {
    pub points: [Point; 3],
}

/// A point of a curve.
#[derive(Clone, Copy, Debug, PartialEq, Eq)]
pub struct Point {
    pub quantity: Tenths,
    pub price: CentsPerMwDay,
}

/// The three points of the curve that parameters make, or the refusal of one that is missing or out of range.
///
/// ```
/// use ozpinduru::{curve, Field, Refusal};
/// let parameters = ozpinduru::read(&std::fs::read("../../examples/reference.book").unwrap())?.parameters;
/// assert_eq!(curve(&parameters)?.points.map(|point| point.price.0), [50_000, 18_750, 0]);
/// let unknown = ozpinduru::Parameters { offset: None, ..parameters };
/// assert_eq!(curve(&unknown), Err(Refusal::MissingParameter(Field::Offset)));
/// # Ok::<(), ozpinduru::Refusal>(())
/// ```
pub fn curve(parameters: &Parameters) -> Result<Curve, Refusal> {
    // SAFETY: the call takes numbers alone, and is defined for all of them.
    let curve = unsafe { raw::ozp_curve((*parameters).into()) };
    let point = |quantity, price| Point { quantity: Tenths(quantity), price: CentsPerMwDay(price) };
    match curve.kind {
        raw::REFUSED => Err(Refusal::of(curve.number, curve.place)),
        raw::GIVEN => Ok(Curve { points: [point(curve.q1, curve.p1), point(curve.q2, curve.p2), point(curve.q3, curve.p3)] }),
        kind => raw::unknown(kind),
    }
}

/// The price at a quantity of the curve that parameters make, between cents; none past the curve's last point.
///
/// ```
/// use ozpinduru::{price_at, CentsPerMwDay, Tenths};
/// let parameters = ozpinduru::read(&std::fs::read("../../examples/reference.book").unwrap())?.parameters;
/// let price = price_at(&parameters, Tenths(10_151))?.unwrap();
/// assert_eq!((price.cents(), price.remainder(), price.divisor()), (CentsPerMwDay(18_687), 150, 300));
/// assert!(price > price.cents().into());
/// assert_eq!(price_at(&parameters, Tenths(10_451))?, None);
/// # Ok::<(), ozpinduru::Refusal>(())
/// ```
pub fn price_at(parameters: &Parameters, k: Tenths) -> Result<Option<ExactPrice>, Refusal> {
    // SAFETY: the call takes numbers alone, and is defined for all of them.
    let price = unsafe { raw::ozp_price_at((*parameters).into(), k.0) };
    match price.kind {
        raw::REFUSED => Err(Refusal::of(price.number, price.place)),
        raw::GIVEN => Ok(Some(ExactPrice::of(price.cents, price.remainder, price.divisor))),
        raw::NONE => Ok(None),
        kind => raw::unknown(kind),
    }
}
