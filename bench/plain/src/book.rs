//! Reading: length, checks, layout, and the limits of the values.

use crate::block::{check_holds, head_laid_out, u16_at, u32_at, zero, BLOCK};
use crate::manner::Manner;
use crate::parameters::Parameters;
use crate::Fault;
use std::collections::HashSet;

pub const PLACE: usize = 32;
pub const PLACES: usize = 15;
pub const MOST_OFFERS: usize = 600;

/// The values of a place. A flexible offer's block is 0, which changes nothing in what is committed.
#[derive(Clone, Copy, PartialEq, Eq)]
pub struct Offer {
    pub resource: u32,
    pub seller: u32,
    pub price: u32,
    pub quantity: u32,
    pub block: u32,
    pub stamp: u64,
    pub marks: u8,
    pub step: u8,
}

pub struct Book {
    pub edition: u16,
    pub parameters: Parameters,
    pub offers: Vec<Offer>,
}

impl Book {
    /// Refusals 1, 2 and 3.
    pub fn read(bytes: &[u8]) -> Result<Book, Fault> {
        let (blocks, rest) = bytes.as_chunks::<BLOCK>();
        let [head, offer_blocks @ ..] = blocks else { return Err((1, 0)) };
        if !rest.is_empty() || offer_blocks.len() > MOST_OFFERS / PLACES {
            return Err((1, 0));
        }
        if let Some(at) = blocks.iter().position(|block| !check_holds(block)) {
            return Err((2, at as u32));
        }
        let count = usize::from(u16_at(head, 24));
        // So few blocks hold no more than 600 offers, so a count that fits them needs no test of its own.
        if !head_laid_out(head) || count.div_ceil(PLACES) != offer_blocks.len() {
            return Err((3, 0));
        }
        let edition = u16_at(head, 4);
        let mut offers = Vec::with_capacity(count);
        for (at, block) in offer_blocks.iter().enumerate() {
            let used = (count - PLACES * at).min(PLACES);
            read_offers(block, at + 1, used, edition, &mut offers).ok_or((3, at as u32 + 1))?;
        }
        Ok(Book { edition, parameters: Parameters::read(head), offers })
    }

    /// Refusals 6, 7, 8 and 10. A row past step 1 that passes 10 has the resource of the row before, which is in the set.
    pub fn check_offers<M: Manner>(&self) -> Result<(), Fault> {
        let mut seen = HashSet::with_capacity_and_hasher(self.offers.len(), M::Hashing::default());
        for (row, offer) in self.offers.iter().enumerate() {
            if offer.marks & 1 == 0 {
                return Err((6, row as u32));
            }
            if !offer.in_range() {
                return Err((7, row as u32));
            }
            if offer.step == 1 {
                if !seen.insert(offer.resource) {
                    return Err((8, row as u32));
                }
            } else if row == 0 || !offer.follows(&self.offers[row - 1]) {
                return Err((10, row as u32));
            }
        }
        Ok(())
    }
}

impl Offer {
    fn read(place: &[u8; PLACE], edition: u16) -> Offer {
        Offer {
            resource: u32_at(place, 0),
            seller: u32_at(place, 4),
            price: u32_at(place, 8),
            quantity: u32_at(place, 12),
            block: u32_at(place, 16),
            stamp: u64::from_le_bytes(place[20..28].try_into().unwrap()),
            marks: place[28],
            step: if edition == 1 { 1 } else { place[29] },
        }
    }

    fn in_range(&self) -> bool {
        self.resource != 0
            && self.seller != 0
            && self.price <= 1_000_000
            && (1..=200_000).contains(&self.quantity)
            && self.block <= self.quantity
            && (self.marks & 2 == 0 || self.block != 0)
            && (1..=10).contains(&self.step)
    }

    /// Whether a row past step 1, of which as of the row before the price is given, keeps the step rules.
    fn follows(&self, before: &Offer) -> bool {
        before.resource == self.resource && before.step + 1 == self.step && before.price <= self.price && self.block == 0
    }
}

/// Adds a block's offers to the list, if the block is laid out as it should be.
fn read_offers(block: &[u8; BLOCK], number: usize, used: usize, edition: u16, offers: &mut Vec<Offer>) -> Option<()> {
    let (places, _) = block[28..508].as_chunks::<PLACE>();
    let (places, unused) = places.split_at(used);
    let opens = block.starts_with(b"OFRS") && u16_at(block, 4) == number as u16 && u16_at(block, 6) == used as u16;
    if !opens || !zero(&block[8..28]) || !zero(unused.as_flattened()) {
        return None;
    }
    // Edition 2 has any step in the second of the last four bytes.
    let told = if edition == 1 { u32::MAX } else { !0xFF00 };
    for place in places {
        let offer = Offer::read(place, edition);
        let absent_price = offer.marks & 1 == 0 && offer.price != 0;
        let absent_block = offer.marks & 2 == 0 && offer.block != 0;
        if u32_at(place, 28) & told > 3 || absent_price || absent_block {
            return None;
        }
        offers.push(offer);
    }
    Some(())
}
