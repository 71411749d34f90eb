//! The auction as a function of a falling curve and priced offers: how much clears, at what price, and how much of each offer.
//!
//! A curve is given as the price at each quantity from 0 to its last one; it may stay level but never rises.

use std::cmp::Reverse;

/// An offer as the auction sees it.
#[derive(Clone, Debug, PartialEq, Eq)]
pub struct Priced {
    pub price: u32,
    pub quantity: u32,
    pub stamp: u64,
    pub resource: u32,
    pub step: u32,
}

/// The offers at one price.
struct Level {
    price: u32,
    /// What is offered strictly below the price, and at it.
    below: u64,
    sum: u64,
    rows: Vec<usize>,
}

impl Level {
    /// What is offered at the price or below.
    fn through(&self) -> u64 {
        self.below + self.sum
    }
}

/// The price levels of the offers, cheapest first.
fn levels(offers: &[Priced]) -> Vec<Level> {
    let mut by_price: Vec<usize> = (0..offers.len()).collect();
    by_price.sort_by_key(|&row| offers[row].price);
    let mut below = 0;
    let mut levels = Vec::new();
    for tied in by_price.chunk_by(|&a, &b| offers[a].price == offers[b].price) {
        let sum = tied.iter().map(|&row| u64::from(offers[row].quantity)).sum();
        levels.push(Level { price: offers[tied[0]].price, below, sum, rows: tied.to_vec() });
        below += sum;
    }
    levels
}

/// X: the largest quantity from 0 to `last` such that the offers priced at or below the curve price there sum to at least it.
///
/// Looks from `last` downward. The curve price rises on the way, so the levels at or below it are only ever added to.
pub fn total(price_at: impl Fn(u32) -> u32, last: u32, offers: &[Priced]) -> u32 {
    let levels = levels(offers);
    let mut dearer = levels.iter().peekable();
    let mut supply = 0;
    for k in (0..=last).rev() {
        let price = price_at(k);
        while let Some(level) = dearer.next_if(|level| level.price <= price) {
            supply = level.through();
        }
        if supply >= u64::from(k) {
            return k;
        }
        // Where the curve is level from `supply` to `k`, the same offers stand under it all the way: all fail down to `supply`.
        if price_at(supply as u32) == price {
            return supply as u32;
        }
    }
    unreachable!("nothing is enough for nothing")
}

/// The lesser of the curve price at X and the lowest price at or below which more than X is offered; none when X is 0.
pub fn price(price_at: impl Fn(u32) -> u32, total: u32, offers: &[Priced]) -> Option<u32> {
    if total == 0 {
        return None;
    }
    let more = levels(offers).iter().find(|level| level.through() > u64::from(total)).map(|level| level.price);
    Some(more.map_or(price_at(total), |lowest| lowest.min(price_at(total))))
}

/// What each offer clears of a total X, by row.
pub fn amounts(total: u32, offers: &[Priced]) -> Vec<u32> {
    let mut cleared = vec![0; offers.len()];
    for level in levels(offers) {
        let amount = u64::from(total).saturating_sub(level.below).min(level.sum);
        for (row, part) in parts(amount, &level, offers) {
            cleared[row] = part;
        }
    }
    cleared
}

/// Divides a level's amount: proportional parts rounded down, and the spare tenths one each to the largest remainders, then
/// the earlier stamp, then the lower resource number, then the lower step.
fn parts(amount: u64, level: &Level, offers: &[Priced]) -> Vec<(usize, u32)> {
    let product = |row: usize| u64::from(offers[row].quantity) * amount;
    let whole = |row: usize| (product(row) / level.sum) as u32;
    let mut order = level.rows.clone();
    let turn = |row: usize| (Reverse(product(row) % level.sum), offers[row].stamp, offers[row].resource, offers[row].step);
    order.sort_by_key(|&row| turn(row));
    let spare = amount - order.iter().map(|&row| u64::from(whole(row))).sum::<u64>();
    order.iter().zip(0..).map(|(&row, turn)| (row, whole(row) + u32::from(turn < spare))).collect()
}
