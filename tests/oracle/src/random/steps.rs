//! Steps of resources: runs that keep the rules, and rows that break them.

use super::Rng;
use crate::book::Offer;

/// Puts offers together into runs, which are the steps of one resource: neighbouring rows counted up from 1, prices never
/// falling, and a minimum block at step 1 alone. Half of the books of 600 are 60 runs of ten.
pub fn in_runs(rng: &mut Rng, offers: &mut [Offer]) {
    let tens = offers.len() == 600 && rng.percent(50);
    let longest = if tens { 10 } else { rng.pick(&[1, 2, 3, 10, 10]) };
    let full = tens || rng.percent(30);
    let mut rest = offers;
    while !rest.is_empty() {
        let length = if full { longest } else { 1 + rng.index(longest) };
        let (run, others) = rest.split_at_mut(length.min(rest.len()));
        step(run);
        rest = others;
    }
}

/// Makes offers the steps of the first one's resource.
fn step(run: &mut [Offer]) {
    run.sort_by_key(|offer| offer.price);
    let resource = run[0].resource;
    for (offer, step) in run.iter_mut().zip(1..) {
        (offer.resource, offer.step) = (resource, step);
        offer.block = offer.block.filter(|_| step == 1);
    }
}

/// Whether a row is the last step of its resource.
pub fn is_last(offers: &[Offer], row: usize) -> bool {
    offers.get(row + 1).is_none_or(|next| next.step == 1)
}

/// A row at which an offer that is put there stands between two runs.
pub fn between(rng: &mut Rng, offers: &[Offer]) -> usize {
    let any = rng.index(offers.len() + 1);
    (any..offers.len()).find(|&row| offers[row].step == 1).unwrap_or(offers.len())
}

/// Breaks a rule of steps, or comes near to it: a step out of range or another one, rows exchanged or left out, a price that
/// falls, one that is missing before a lower one, a minimum block past step 1, a run that has an earlier one's resource.
pub fn spoil(rng: &mut Rng, offers: &mut Vec<Offer>) {
    let past: Vec<usize> = (1..offers.len()).filter(|&row| offers[row].step > 1).collect();
    let any = rng.index(offers.len());
    let row = if past.is_empty() { any } else { rng.pick(&past) };
    let before = row.saturating_sub(1);
    match rng.draw() % 18 {
        0 => offers[any].step = rng.pick(&[0, 11, 255]),
        1 => offers[any].step = rng.between32(1, 10),
        2 => offers[row].step = rng.pick(&[1, offers[row].step + 1, offers[row].step.saturating_sub(1)]),
        3 => offers.swap(row, before),
        4 => drop(offers.remove(any)),
        5 => drop(offers.remove(before)),
        6 => offers[row].price = offers[before].price.map(|price| price.saturating_sub(1)),
        7 => offers[before].price = offers[row].price.map(|price| (price + 1).min(1_000_000)),
        8 => offers[row].resource = offers[any].resource,
        9..=11 => missing_between(rng, offers),
        12..=14 => offers[row].block = rng.pick(&[Some(1), Some(offers[row].quantity), Some(0)]),
        _ => repeat_a_run(rng, offers),
    }
}

/// The last but one price of a run missing, and its last lower than the one before: prices 5, missing, 3 are no breach.
fn missing_between(rng: &mut Rng, offers: &mut [Offer]) {
    let last: Vec<usize> = (2..offers.len()).filter(|&row| offers[row].step > 2 && is_last(offers, row)).collect();
    if !last.is_empty() {
        let row = rng.pick(&last);
        offers[row].price = offers[row - 2].price.map(|price| price.saturating_sub(rng.between32(1, 100)));
        offers[row - 1].price = None;
    }
}

/// Gives all rows of a run, from its first on, the resource of any row.
fn repeat_a_run(rng: &mut Rng, offers: &mut [Offer]) {
    let (any, other) = (rng.index(offers.len()), rng.pick(offers).resource);
    let own = offers[any].resource;
    offers.iter_mut().filter(|offer| offer.resource == own).for_each(|offer| offer.resource = other);
}
