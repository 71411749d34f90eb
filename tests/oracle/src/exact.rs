//! The curve price between cents.

use crate::Point;

/// A price: whole cents, with a remainder and its divisor.
#[derive(Clone, Copy, Debug, PartialEq, Eq)]
pub struct ExactPrice {
    pub cents: u32,
    pub remainder: u32,
    pub divisor: u32,
}

/// The price at a quantity; none past the last point. The level stretch, the first point included, has remainder 0 and divisor 1;
/// the second point belongs to the line that ends there.
pub fn exact_price_at(points: &[Point; 3], k: u32) -> Option<ExactPrice> {
    let [first, second, third] = points;
    if k <= first.quantity {
        return Some(ExactPrice { cents: first.price, remainder: 0, divisor: 1 });
    }
    let (left, right) = [(first, second), (second, third)].into_iter().find(|(_, right)| k <= right.quantity)?;
    Some(on_line(left, right, k))
}

/// The straight line from one point to the next: in parts of a cent, of which the width in tenths makes one, each tenth is less
/// than the one before it by the difference of both prices.
fn on_line(left: &Point, right: &Point, k: u32) -> ExactPrice {
    let divisor = right.quantity - left.quantity;
    let fallen = u64::from(left.price - right.price) * u64::from(k - left.quantity);
    let parts = u64::from(left.price) * u64::from(divisor) - fallen;
    let [cents, remainder] = [parts / u64::from(divisor), parts % u64::from(divisor)].map(|number| number as u32);
    ExactPrice { cents, remainder, divisor }
}
