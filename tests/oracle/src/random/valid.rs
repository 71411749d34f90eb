//! Valid books: ties at few prices, prices at and beside the curve's points, sums that meet them, extreme parameters.

use super::columns::{blocks, prices, quantities, resources, stamps};
use super::{steps, Rng};
use crate::book::{Book, Offer, Parameters};
use crate::curve::Point;
use crate::make;

/// A book that clears, given long enough buffers.
pub fn book(rng: &mut Rng) -> Vec<u8> {
    make::bytes(&values(rng))
}

/// What a valid book says. Those of edition 2 have runs of steps.
pub fn values(rng: &mut Rng) -> Book {
    let parameters = parameters(rng);
    let mut offers = offers(rng, &parameters.curve());
    let edition = rng.pick(&[1, 2]);
    if edition == 2 {
        steps::in_runs(rng, &mut offers);
    }
    Book { edition, parameters, offers }
}

fn parameters(rng: &mut Rng) -> Parameters {
    let (year, margin) = year(rng);
    if rng.percent(20) {
        return Parameters { year, margin, ..make::reference() };
    }
    let cost = match rng.draw() % 6 {
        0 => 1_000_000,
        1 => rng.between32(1, 3),
        2 => 146 * rng.between32(1, 1_000),
        _ => rng.between32(1, 1_000_000),
    };
    let offset = match rng.draw() % 5 {
        0 => 0,
        1 => cost,
        2 => cost - 1,
        _ => rng.between32(0, cost),
    };
    let any_outage = rng.between32(0, 5_000);
    let outage = rng.pick(&[0, 2_000, 5_000, any_outage, any_outage]);
    let requirement = match rng.draw() % 10 {
        0 => 2_000_000,
        1 => 1_000,
        2 => rng.between32(1_000, 2_000_000),
        3 => 1_050 + 100 * rng.between32(0, 50),
        _ => rng.between32(1_000, 30_000),
    };
    let [cost, offset, outage, requirement] = [cost, offset, outage, requirement].map(Some);
    Parameters { year, cost, offset, outage, requirement, margin }
}

/// A delivery year, one in three from 2022 to 2025, and the margin that it has or does not have.
fn year(rng: &mut Rng) -> (u32, Option<u32>) {
    let any = rng.between32(0, 5_000);
    match rng.draw() % 6 {
        0 | 1 => (rng.between32(2022, 2025), Some(rng.pick(&[0, 1, 1_500, 4_999, 5_000, any, any]))),
        2 | 3 => (rng.between32(2026, 2035), None),
        _ => (rng.between32(2026, 2099), None),
    }
}

/// How many offers: mostly few, sometimes around a full block, sometimes very many.
fn number_of_offers(rng: &mut Rng) -> usize {
    let number = match rng.draw() % 20 {
        0 => 0,
        1..=7 => rng.between(1, 4),
        8..=12 => rng.between(5, 20),
        13..=15 => (15 * rng.between(1, 6) + rng.between(0, 2)) - 1,
        16..=17 => rng.between(21, 200),
        18 => rng.between(201, 600),
        _ => rng.pick(&[598, 599, 600, 600]),
    };
    number as usize
}

fn offers(rng: &mut Rng, points: &[Point; 3]) -> Vec<Offer> {
    let number = number_of_offers(rng);
    let quantities = quantities(rng, number, points);
    let prices = prices(rng, &quantities, points);
    let stamps = stamps(rng, number);
    let blocks = blocks(rng, &quantities);
    let resources = resources(rng, number);
    let mut offers: Vec<Offer> = (0..number)
        .map(|at| Offer {
            resource: resources[at],
            seller: rng.pick(&[1, 7, u32::MAX]),
            price: Some(prices[at]),
            quantity: quantities[at],
            block: blocks[at],
            stamp: stamps[at],
            step: 1,
        })
        .collect();
    if rng.percent(70) {
        rng.shuffle(&mut offers);
    }
    offers
}
