//! The supply stack, the total and the price, and the division of the level that clears in part.

use crate::book::Offer;
use crate::curve::Curve;
use crate::manner::Manner;
use std::cmp::Reverse;

/// How much clears, at what price, and who gets it.
pub struct Auction {
    pub total: u32,
    pub price: Option<u32>,
    /// The offers that the curve may buy, by price: the price in the high half of each number, the row in the low half.
    stack: Vec<u64>,
    /// So many of the stack clear in full, and those from there to `tied` share a part of what they offer.
    full: usize,
    tied: usize,
    offered: u64,
    shared: u64,
}

impl Auction {
    /// Adds level after level, cheapest first, until one passes what the curve buys at its price.
    pub fn new(offers: &[Offer], curve: &Curve) -> Auction {
        let stack = stacked(offers, curve.highest());
        let mut below = 0;
        let mut full = 0;
        for level in stack.chunk_by(|&a, &b| price(a) == price(b)) {
            let price = price(level[0]);
            let offered: u64 = level.iter().map(|&key| u64::from(offers[row(key)].quantity)).sum();
            if !curve.buys(below + offered, price) {
                let total = below.max(curve.last_at(price));
                let price = Some(price.min(curve.price_at(total)) as u32);
                let tied = full + level.len();
                return Auction { total: total as u32, price, stack, full, tied, offered, shared: total - below };
            }
            below += offered;
            full += level.len();
        }
        let price = (below > 0).then(|| curve.price_at(below) as u32);
        Auction { total: below as u32, price, stack, full, tied: full, offered: 0, shared: 0 }
    }

    /// Fills in what each row clears.
    pub fn divide<M: Manner>(&self, offers: &[Offer], cleared: &mut [u32]) {
        cleared.fill(0);
        for &key in &self.stack[..self.full] {
            cleared[row(key)] = offers[row(key)].quantity;
        }
        if self.shared > 0 {
            self.share::<M>(offers, cleared);
        }
    }

    /// Proportional parts rounded down, and the spare tenths to the largest remainders, earliest stamps, lowest resources, and
    /// lowest steps, which stand in the order of their rows.
    fn share<M: Manner>(&self, offers: &[Offer], cleared: &mut [u32]) {
        let tied = &self.stack[self.full..self.tied];
        let mut turns = Vec::with_capacity(tied.len());
        let mut spare = self.shared;
        for &key in tied {
            let offer = &offers[row(key)];
            let product = u64::from(offer.quantity) * self.shared;
            let whole = product / self.offered;
            cleared[row(key)] = whole as u32;
            spare -= whole;
            turns.push((Reverse(product - whole * self.offered), offer.stamp, offer.resource, row(key)));
        }
        if spare > 0 {
            M::bring_first(&mut turns, spare as usize);
            for &(.., row) in &turns[..spare as usize] {
                cleared[row] += 1;
            }
        }
    }
}

/// The offers at or under the highest price, by price.
fn stacked(offers: &[Offer], highest: u64) -> Vec<u64> {
    let keys = offers.iter().zip(0..).map(|(offer, row)| u64::from(offer.price) << 32 | row);
    let mut stack: Vec<u64> = keys.filter(|&key| price(key) <= highest).collect();
    stack.sort_unstable();
    stack
}

fn price(key: u64) -> u64 {
    key >> 32
}

fn row(key: u64) -> usize {
    key as u32 as usize
}
