//! What a writer of books is given: an edition, parameters and rows, with values missing, out of range, too wide for their bytes or
//! repeated, and with steps that break their rules.

use super::wrong::{spoil_offers, spoil_parameter};
use super::{steps, valid, Rng};
use crate::book::{Book, Offer};
use crate::make;

/// What a book would say: half can be written, given room enough; some have more rows than a book may have.
pub fn contents(rng: &mut Rng) -> Book {
    let mut book = valid::values(rng);
    if rng.percent(60) {
        leave_out(rng, &mut book);
    }
    if rng.percent(40) {
        spoil(rng, &mut book);
    }
    if rng.percent(5) {
        overfill(rng, &mut book.offers);
    }
    if rng.percent(6) {
        book.edition = rng.pick(&[0, 3, 1, 2, 3, 257, 65_537, u32::MAX]);
    }
    book
}

/// Any of the parameters, prices and minimum blocks missing.
fn leave_out(rng: &mut Rng, book: &mut Book) {
    let p = &mut book.parameters;
    for value in [&mut p.cost, &mut p.offset, &mut p.outage, &mut p.requirement, &mut p.margin] {
        *value = value.filter(|_| rng.percent(70));
    }
    let most = rng.pick(&[0, 10, 100]);
    for offer in &mut book.offers {
        offer.price = offer.price.filter(|_| !rng.percent(most));
        offer.block = offer.block.filter(|_| !rng.percent(most));
    }
}

/// One to three values out of range, too wide or repeated, or steps that break their rules.
fn spoil(rng: &mut Rng, book: &mut Book) {
    for _ in 0..rng.pick(&[1, 1, 2, 3]) {
        let p = &mut book.parameters;
        match rng.draw() % 12 {
            0 => p.year = rng.pick(&[65_536, 65_536 + p.year, (1 << 31) + p.year, u32::MAX]),
            1..=3 => spoil_parameter(rng, p),
            _ if book.offers.is_empty() => spoil_parameter(rng, p),
            4 => too_wide(rng, &mut book.offers),
            5 => steps::spoil(rng, &mut book.offers),
            _ => spoil_offers(rng, book),
        }
    }
}

/// A step that its byte does not hold, though its low byte may be one that fits.
fn too_wide(rng: &mut Rng, offers: &mut [Offer]) {
    let row = rng.index(offers.len());
    let step = offers[row].step;
    offers[row].step = rng.pick(&[256, 256 + step, 65_536 + step, (1 << 31) + step, u32::MAX]);
}

/// More rows than a book may have: some of them over again.
fn overfill(rng: &mut Rng, offers: &mut Vec<Offer>) {
    let most = rng.pick(&[601, 601, 602, 615, 1_200]);
    let next = offers.last().cloned().unwrap_or_else(|| make::offer(1, 10, 10, 1));
    offers.extend((offers.len()..most).map(|at| Offer { resource: 1 + at as u32, ..next.clone() }));
}
