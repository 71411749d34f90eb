//! Wrong books: faulty values, and bytes that never were a book.

use super::{steps, valid, Rng};
use crate::book::{Book, Offer, Parameters, BLOCK};
use crate::make;

/// A book with one to three values missing, out of range or repeated, or with steps that break their rules.
pub fn faulty(rng: &mut Rng) -> Vec<u8> {
    let mut book = valid::values(rng);
    for _ in 0..rng.pick(&[1, 1, 2, 3]) {
        if book.offers.is_empty() || rng.percent(30) {
            spoil_parameter(rng, &mut book.parameters);
        } else {
            spoil_offers(rng, &mut book);
        }
    }
    make::bytes(&book)
}

/// A row spoiled; in edition 2 half of the time its step or its place among the steps of its resource.
pub(super) fn spoil_offers(rng: &mut Rng, book: &mut Book) {
    if book.edition == 2 && rng.percent(50) {
        steps::spoil(rng, &mut book.offers);
    } else {
        spoil_row(rng, &mut book.offers);
    }
}

pub(super) fn spoil_parameter(rng: &mut Rng, p: &mut Parameters) {
    let over_cost = p.cost.unwrap_or(1_000_000).saturating_add(1);
    match rng.draw() % 13 {
        0 => p.year = rng.pick(&[0, 1, 1999, 2021, 2100, 65_535]),
        9 => p.year = rng.between32(2020, 2035),
        10 => p.margin = rng.pick(&[Some(0), Some(1_500), Some(5_000)]),
        11 => p.margin = rng.pick(&[Some(5_001), Some(10_000), Some(u32::MAX)]),
        12 => p.margin = None,
        1 => p.cost = rng.pick(&[Some(0), Some(1_000_001), Some(u32::MAX)]),
        2 => p.offset = rng.pick(&[Some(over_cost), Some(1_000_000), Some(1_000_001), Some(u32::MAX)]),
        3 => p.outage = rng.pick(&[Some(5_001), Some(10_000), Some(u32::MAX)]),
        4 => p.requirement = rng.pick(&[Some(0), Some(999), Some(2_000_001), Some(u32::MAX)]),
        5 => p.cost = None,
        6 => p.offset = None,
        7 => p.outage = None,
        _ => p.requirement = None,
    }
}

fn spoil_row(rng: &mut Rng, offers: &mut [Offer]) {
    let other = rng.pick(offers).resource;
    let row = rng.index(offers.len());
    let offer = &mut offers[row];
    match rng.draw() % 10 {
        0 => offer.resource = 0,
        1 => offer.seller = 0,
        2 => offer.price = rng.pick(&[Some(1_000_001), Some(1 << 20), Some(u32::MAX)]),
        3 => offer.quantity = rng.pick(&[0, 200_001, u32::MAX]),
        4 => offer.block = rng.pick(&[Some(0), Some(offer.quantity.saturating_add(1)), Some(u32::MAX)]),
        5..=7 => offer.resource = other,
        _ => offer.price = None,
    }
}

/// Random bytes of any length, half of them sealed in blocks with the right letters; or a book of 601 offers and more.
pub fn stray(rng: &mut Rng) -> Vec<u8> {
    if rng.percent(20) {
        let offers: Vec<Offer> = (1..=601 + rng.draw() as u32 % 40).map(|at| make::offer(at, 10, at, at.into())).collect();
        return make::book(&make::reference(), &offers);
    }
    let whole = BLOCK * rng.index(44);
    let any = rng.index(22_500);
    let mut bytes = vec![0; rng.pick(&[whole, any])];
    let most = rng.pick(&[0, 1, 255]);
    bytes.iter_mut().for_each(|byte| *byte = rng.between(0, most) as u8);
    if rng.percent(50) {
        let edition = rng.pick(&[1, 2]);
        for (block, at) in bytes.chunks_exact_mut(BLOCK).zip(0..) {
            block[..4].copy_from_slice(if at == 0 { b"RPMB" } else { b"OFRS" });
            make::put(block, 4, 2, if at == 0 { edition } else { at });
        }
        make::seal_all(&mut bytes);
    }
    bytes
}
