//! The curve between cents.

use oracle::{curve, exact_price_at, price_at, ExactPrice, Point};

fn exact(points: &[Point; 3], k: u32) -> Option<(u32, u32, u32)> {
    exact_price_at(points, k).map(|price| (price.cents, price.remainder, price.divisor))
}

#[test]
fn corners_of_the_reference_book() {
    let reference = curve(146_000, 73_000, 2_000, 10_000);
    for (k, price) in [
        (0, (50_000, 0, 1)),
        (9_900, (50_000, 0, 1)),
        (9_901, (49_875, 0, 250)),
        (10_150, (18_750, 0, 250)),
        (10_151, (18_687, 150, 300)),
        (10_449, (62, 150, 300)),
        (10_450, (0, 0, 300)),
    ] {
        assert_eq!(exact(&reference, k), Some(price), "{k}");
    }
    assert_eq!(exact(&reference, 10_451), None);
}

#[test]
fn the_cents_are_the_price_that_clears() {
    let curves = [(146_000, 73_000, 2_000, 1_000), (146_000, 146_000, 1, 1_050), (1, 0, 0, 1_000), (999_983, 7, 4_999, 9_973)];
    for points in curves.map(|(cost, offset, outage, requirement)| curve(cost, offset, outage, requirement)) {
        for k in 0..=points[2].quantity + 1 {
            assert_eq!(exact_price_at(&points, k).map(|price| price.cents), price_at(&points, k), "{points:?} at {k}");
            assert!(exact_price_at(&points, k).is_none_or(|price| price.remainder < price.divisor));
        }
    }
}

#[test]
fn neighbours_on_a_line_differ_alike() {
    let points = curve(999_983, 7, 4_999, 9_973);
    let parts = |k| {
        let ExactPrice { cents, remainder, divisor } = exact_price_at(&points, k).unwrap();
        i64::from(cents) * i64::from(divisor) + i64::from(remainder)
    };
    for ends in points.windows(2) {
        let [left, right] = [0, 1].map(|at| ends[at].quantity);
        let fall = i64::from(ends[0].price) - i64::from(ends[1].price);
        assert!((left + 1..right).all(|k| parts(k) - parts(k + 1) == fall));
    }
}
