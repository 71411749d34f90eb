//! Refusals 4 to 10: what the values of a well laid-out book may be. Each function gives the first fault of its kind.

use crate::book::{Fault, Offer, Parameters};

const MOST_COST: u32 = 1_000_000;

/// 4: the first parameter that is missing. A reserve margin is missing only in a year whose curve goes by it.
pub fn missing(p: &Parameters) -> Option<Fault> {
    let [cost, offset, outage, requirement] = [p.cost, p.offset, p.outage, p.requirement].map(|value| value.is_none());
    let margin = p.margin.is_none() && p.by_margin();
    [cost, offset, outage, requirement, margin].iter().position(|&missing| missing).map(|at| (4, at as u32 + 2))
}

/// 5: the first given parameter that is out of range. Where C is missing E may reach 1,000,000. A year past 2025 has no margin.
pub fn out_of_range(p: &Parameters) -> Option<Fault> {
    let within = |value: Option<u32>, least, most| value.is_none_or(|value| (least..=most).contains(&value));
    let in_range = [
        within(Some(p.year), 2022, 2099),
        within(p.cost, 1, MOST_COST),
        within(p.offset, 0, p.cost.unwrap_or(MOST_COST)),
        within(p.outage, 0, 5_000),
        within(p.requirement, 1_000, 2_000_000),
        within(p.margin, 0, 5_000) && (p.margin.is_none() || p.year <= 2025),
    ];
    in_range.iter().position(|&fits| !fits).map(|at| (5, at as u32 + 1))
}

/// 6, 7, 8, 10: the fault of the first faulty row. A missing price is a fault only where one is needed, and only a row with step
/// 1 is tested for 8.
pub fn rows(edition: u32, offers: &[Offer], price_needed: bool) -> Option<Fault> {
    (0..offers.len()).find_map(|row| {
        let offer = &offers[row];
        let number = if price_needed && offer.price.is_none() {
            6
        } else if !offer_in_range(offer) || !step_in_range(edition, offer.step) {
            7
        } else if offer.step == 1 && offers[..row].iter().any(|earlier| earlier.resource == offer.resource) {
            8
        } else if step_breach(offers, row).is_some() {
            10
        } else {
            return None;
        };
        Some((number, row as u32))
    })
}

fn offer_in_range(offer: &Offer) -> bool {
    offer.resource >= 1
        && offer.seller >= 1
        && offer.price.is_none_or(|price| price <= 1_000_000)
        && (1..=200_000).contains(&offer.quantity)
        && offer.block.is_none_or(|block| (1..=offer.quantity).contains(&block))
}

/// "1 to 10, or in edition 1" 1.
fn step_in_range(edition: u32, step: u32) -> bool {
    if edition == 1 {
        step == 1
    } else {
        (1..=10).contains(&step)
    }
}

/// What a row past step 1 breaks of the step rules.
#[derive(Clone, Copy, Debug, PartialEq, Eq)]
pub enum Breach {
    /// The row before is of another resource, or there is none.
    NotNeighbouring,
    /// The row before has another step than the one below.
    NotCountedUp,
    /// The row before has a higher price; both are given.
    PriceFalls,
    /// Only step 1 may have a minimum block.
    Block,
}

/// "A resource's steps stand in neighbouring rows, counted up from 1, prices never falling, and only step 1 may have a minimum
/// block": what a row breaks of that.
pub fn step_breach(offers: &[Offer], row: usize) -> Option<Breach> {
    let offer = &offers[row];
    if offer.step == 1 {
        return None;
    }
    let Some(before) = offers[..row].last().filter(|before| before.resource == offer.resource) else {
        return Some(Breach::NotNeighbouring);
    };
    let falls = matches!((before.price, offer.price), (Some(before), Some(price)) if price < before);
    if before.step + 1 != offer.step {
        Some(Breach::NotCountedUp)
    } else if falls {
        Some(Breach::PriceFalls)
    } else {
        offer.block.map(|_| Breach::Block)
    }
}

/// 9: the first result buffer that is too short.
pub fn buffers(offers: usize, cleared_len: usize, committed_len: usize) -> Option<Fault> {
    if cleared_len < offers {
        Some((9, 1))
    } else if committed_len < offers {
        Some((9, 2))
    } else {
        None
    }
}
