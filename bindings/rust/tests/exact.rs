//! Prices between cents, beside fractions of their own.

use ozpinduru::{curve, price_at, CentsPerMwDay, DollarsPerMwYear, ExactPrice, Parameters, Point, Tenths};
use std::cmp::Ordering;

fn parameters((cost, offset, outage, requirement): (u32, u32, u32, u32)) -> Parameters {
    let dollars = |number| Some(DollarsPerMwYear(number));
    let (cost, offset) = (dollars(cost), dollars(offset));
    Parameters { year: 2026, cost, offset, outage: Some(outage), requirement: Some(Tenths(requirement)), margin: None }
}

/// The reference, a curve that comes down to 0 at its second point, one of zeros, the largest, and one of odd numbers.
fn curves() -> [Parameters; 5] {
    let reference = (146_000, 73_000, 2_000, 10_000);
    let [down, zeros] = [(146_000, 146_000, 2_000, 1_001), (1, 0, 0, 1_000)];
    [reference, down, zeros, (1_000_000, 0, 5_000, 2_000_000), (999_983, 7, 4_999, 9_973)].map(parameters)
}

fn at(parameters: &Parameters, k: u32) -> ExactPrice {
    price_at(parameters, Tenths(k)).unwrap().unwrap()
}

/// The line through two points at k, as a fraction that is not shortened: its start less its slope.
fn line([a, b]: [Point; 2], k: u32) -> (i128, i128) {
    let [pa, pb, qa, qb] = [a.price.0, b.price.0, a.quantity.0, b.quantity.0].map(i128::from);
    (pa * (qb - qa) - (pa - pb) * (i128::from(k) - qa), qb - qa)
}

fn fraction(price: ExactPrice) -> (i128, i128) {
    (i128::from(price.numerator()), i128::from(price.divisor()))
}

fn compared((a, b): (i128, i128), (c, d): (i128, i128)) -> Ordering {
    (a * d).cmp(&(c * b))
}

#[test]
fn every_corner_is_the_line_through_its_points() {
    for parameters in curves() {
        let points = curve(&parameters).unwrap().points;
        let [q1, q2, q3] = points.map(|point| point.quantity.0);
        for (k, (due, divisor)) in [
            (0, ((points[0].price.0.into(), 1), 1)),
            (q1, ((points[0].price.0.into(), 1), 1)),
            (q1 + 1, (line([points[0], points[1]], q1 + 1), q2 - q1)),
            (q2, (line([points[0], points[1]], q2), q2 - q1)),
            (q2 + 1, (line([points[1], points[2]], q2 + 1), q3 - q2)),
            (q3, (line([points[1], points[2]], q3), q3 - q2)),
        ] {
            let price = at(&parameters, k);
            assert_eq!((compared(fraction(price), due), price.divisor()), (Ordering::Equal, divisor), "{parameters:?} at {k}");
            assert_eq!(i128::from(price.cents().0), due.0 / due.1);
            assert!(price.remainder() < price.divisor());
        }
        assert_eq!(price_at(&parameters, Tenths(q3 + 1)), Ok(None));
    }
}

#[test]
fn prices_compare_as_fractions_do() {
    for parameters in curves() {
        let [q1, q2, q3] = curve(&parameters).unwrap().points.map(|point| point.quantity.0);
        let prices: Vec<ExactPrice> =
            [q1 - 1, q1, q1 + 1, q2 - 1, q2, q2 + 1, q3 - 1, q3].iter().map(|k| at(&parameters, *k)).collect();
        assert!(prices.is_sorted_by(|one, next| one >= next), "{parameters:?}");
        for one in &prices {
            for other in &prices {
                assert_eq!(one.cmp(other), compared(fraction(*one), fraction(*other)));
                assert_eq!(one == other, one.cmp(other).is_eq());
            }
            assert!(*one >= one.cents().into() && *one < CentsPerMwDay(one.cents().0 + 1).into());
        }
    }
}

#[test]
fn a_price_has_one_value_whatever_its_divisor() {
    let reference = curves()[0];
    let [first, second] = [9_900, 10_150].map(|k| at(&reference, k));
    assert_eq!((first.divisor(), second.divisor()), (1, 250));
    assert_eq!([first, second], [50_000, 18_750].map(|cents| CentsPerMwDay(cents).into()));
    assert_eq!([10_150, 10_151].map(|k| at(&reference, k).to_string()), ["18750", "18687 150/300"]);
}
