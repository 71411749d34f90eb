//! The requirement curve: three points, rounded once each, and the price at a quantity.

/// A point of the curve: tenths of a megawatt, cents per MW-day.
#[derive(Clone, Copy, Debug, PartialEq, Eq)]
pub struct Point {
    pub quantity: u32,
    pub price: u32,
}

/// The three points of a delivery year from 2026 on, for a cost of new entry, a revenue offset, an EFORd and a reliability
/// requirement in their ranges.
pub fn curve(cost: u32, offset: u32, outage: u32, requirement: u32) -> [Point; 3] {
    let net = u64::from(cost - offset);
    // In quarters of a dollar a year: the greater of C and 1.75 times (C minus E), and 0.75 times (C minus E).
    let first = (4 * u64::from(cost)).max(7 * net);
    let second = 3 * net;
    [
        Point { quantity: per_mille(requirement, 990), price: daily_cents(first, outage) },
        Point { quantity: per_mille(requirement, 1_015), price: daily_cents(second, outage) },
        Point { quantity: per_mille(requirement, 1_045), price: 0 },
    ]
}

/// The three points of a delivery year from 2022 to 2025: as above, with 1.5 times the net cost in point 1, and with R times
/// (100% + margin, less 1.2%, plus 1.9%, plus 7.8%) over (100% + margin), each quantity by itself.
pub fn curve_by_margin(cost: u32, offset: u32, outage: u32, requirement: u32, margin: u32) -> [Point; 3] {
    let net = u64::from(cost - offset);
    let first = (4 * u64::from(cost)).max(6 * net);
    let second = 3 * net;
    let over = 10_000 + u64::from(margin);
    let quantity = |part: u64| nearest(u64::from(requirement) * part, over);
    [
        Point { quantity: quantity(over - 120), price: daily_cents(first, outage) },
        Point { quantity: quantity(over + 190), price: daily_cents(second, outage) },
        Point { quantity: quantity(over + 780), price: 0 },
    ]
}

/// The price at a quantity; none past the last point.
pub fn price_at(points: &[Point; 3], k: u32) -> Option<u32> {
    let [first, second, third] = points;
    if k <= first.quantity {
        Some(first.price)
    } else if k <= second.quantity {
        Some(between(first, second, k))
    } else if k <= third.quantity {
        Some(between(second, third, k))
    } else {
        None
    }
}

/// The straight line between two points at a quantity between theirs, rounded down to a cent.
fn between(left: &Point, right: &Point, k: u32) -> u32 {
    let weighted =
        u64::from(left.price) * u64::from(right.quantity - k) + u64::from(right.price) * u64::from(k - left.quantity);
    (weighted / u64::from(right.quantity - left.quantity)) as u32
}

/// Quarters of a dollar per MW-year of installed capacity to cents per MW-day of unforced capacity:
/// times 100, over 4, over 365, over (1 minus F/10,000), in one division.
fn daily_cents(quarters: u64, outage: u32) -> u32 {
    nearest(quarters * 100 * 10_000, 4 * 365 * (10_000 - u64::from(outage)))
}

fn per_mille(requirement: u32, part: u64) -> u32 {
    nearest(u64::from(requirement) * part, 1_000)
}

/// The nearest whole number to a quotient; a half goes upward.
fn nearest(above: u64, under: u64) -> u32 {
    ((2 * above + under) / (2 * under)) as u32
}
