//! The values of a valid book's offers, a column at a time.

use super::Rng;
use crate::curve::{price_at, Point};

pub fn quantities(rng: &mut Rng, number: usize, points: &[Point; 3]) -> Vec<u32> {
    // So much each that together they come near the curve's points, however many they are.
    let even = (points[1].quantity / number.max(1) as u32).clamp(1, 200_000);
    let one = rng.between32(1, 2 * even).min(200_000);
    let kind = rng.draw() % 8;
    let mut quantities: Vec<u32> = (0..number)
        .map(|_| match kind {
            0 => one,
            1 => rng.between32(1, 9),
            2 => rng.between32(1, 200_000),
            3 => 200_000,
            4 => rng.pick(&[one, one, 1]),
            _ => rng.between32(1, (3 * even).min(200_000)),
        })
        .collect();
    if number > 1 && rng.percent(40) {
        first_fills(rng, &mut quantities, points);
    }
    quantities
}

/// Gives the first offer what brings the sum of a few to one of the curve's points, or next to it.
fn first_fills(rng: &mut Rng, quantities: &mut [u32], points: &[Point; 3]) {
    let few = 1 + rng.index(quantities.len());
    let others: u32 = quantities[1..few].iter().sum();
    let aim = rng.pick(points).quantity + rng.pick(&[0, 1, 2]) - 1;
    if aim > others && aim - others <= 200_000 {
        quantities[0] = aim - others;
    }
}

pub fn prices(rng: &mut Rng, quantities: &[u32], points: &[Point; 3]) -> Vec<u32> {
    let first = points[0].price;
    let kind = rng.draw() % 8;
    let few: Vec<u32> = (0..rng.between(1, 5)).map(|_| near_the_curve(rng, points)).collect();
    let start = rng.between32(0, 1_000_000 - 600);
    let mut sum = 0;
    (0u32..)
        .zip(quantities)
        .map(|(at, &quantity)| {
            sum = points[2].quantity.min(sum + quantity);
            match kind {
                0 => few[0],
                1 | 2 => rng.pick(&few),
                3 => near_the_curve(rng, points),
                4 => nudged(rng, price_at(points, sum).unwrap()),
                5 => rng.between32(0, first),
                6 => start + at,
                _ => rng.between32(0, (2 * first).min(1_000_000)),
            }
        })
        .collect()
}

/// A price at one of the curve's points, or on its slopes, or a cent beside.
fn near_the_curve(rng: &mut Rng, points: &[Point; 3]) -> u32 {
    let price = match rng.draw() % 6 {
        0 => points[0].price,
        1 => points[1].price,
        2 => 0,
        3 => rng.pick(&[1_000_000, 999_999]),
        _ => price_at(points, rng.between32(points[0].quantity, points[2].quantity)).unwrap(),
    };
    nudged(rng, price)
}

fn nudged(rng: &mut Rng, price: u32) -> u32 {
    match rng.draw() % 4 {
        0 => price.saturating_sub(1),
        1 => (price + 1).min(1_000_000),
        _ => price,
    }
}

pub fn stamps(rng: &mut Rng, number: usize) -> Vec<u64> {
    let kind = rng.draw() % 5;
    let one = rng.draw();
    (0..number as u64)
        .map(|at| match kind {
            0 => one,
            1 => rng.between(0, 3),
            2 => 1_000 - at,
            3 => rng.pick(&[0, 1, u64::MAX, 1 << 63, (1 << 63) - 1, 1 << 32]),
            _ => rng.draw(),
        })
        .collect()
}

pub fn blocks(rng: &mut Rng, quantities: &[u32]) -> Vec<Option<u32>> {
    let kind = rng.draw() % 4;
    quantities
        .iter()
        .map(|&quantity| match kind {
            0 => None,
            1 => Some(quantity),
            _ => rng.percent(50).then(|| rng.between32(1, quantity)),
        })
        .collect()
}

/// Different resource numbers: in a run, a run of high ones, equal in their low 16 bits, or spread out.
pub fn resources(rng: &mut Rng, number: usize) -> Vec<u32> {
    let low = rng.between32(1, 60_000);
    let kind = rng.draw() % 4;
    let mut resources: Vec<u32> = (0..number as u32)
        .map(|at| match kind {
            0 => low + at,
            1 => u32::MAX - at,
            2 => low + (at << 16),
            _ => (low + at).wrapping_mul(2_654_435_761),
        })
        .collect();
    if rng.percent(50) {
        rng.shuffle(&mut resources);
    }
    resources
}
