//! What a book says, read from its bytes and written to them.

use crate::block::{sums, u16_at, u32_at, BLOCK};
use crate::book::{Book, MOST_OFFERS, PLACE, PLACES};
use crate::manner::Manner;
use crate::Fault;
use std::collections::HashSet;

/// The edition, the year, then C, E, F, R and the reserve margin in `values`, and the rows.
#[derive(Clone, Debug, PartialEq, Eq)]
pub struct Contents {
    pub edition: u32,
    pub year: u32,
    pub values: [Option<u32>; 5],
    pub rows: Vec<Row>,
}

#[derive(Clone, Copy, Debug, PartialEq, Eq)]
pub struct Row {
    pub resource: u32,
    pub seller: u32,
    pub price: Option<u32>,
    pub quantity: u32,
    pub block: Option<u32>,
    pub stamp: u64,
    pub step: u32,
}

/// Where the values stand in block 0.
const VALUES_AT: [usize; 5] = [8, 12, 16, 20, 28];

impl Contents {
    /// Refusals 1, 2 and 3.
    pub fn read(bytes: &[u8]) -> Result<Contents, Fault> {
        let Book { edition, offers, .. } = Book::read(bytes)?;
        let value = |bit: usize| (bytes[26] >> bit & 1 == 1).then(|| u32_at(bytes, VALUES_AT[bit]));
        let rows = offers.iter().map(|offer| Row {
            resource: offer.resource,
            seller: offer.seller,
            price: (offer.marks & 1 == 1).then_some(offer.price),
            quantity: offer.quantity,
            block: (offer.marks & 2 == 2).then_some(offer.block),
            stamp: offer.stamp,
            step: offer.step.into(),
        });
        let (edition, year) = (edition.into(), u16_at(bytes, 6).into());
        Ok(Contents { edition, year, values: [0, 1, 2, 3, 4].map(value), rows: rows.collect() })
    }

    /// Refusals 5, 7, 8 and 10: what keeps a book that is laid out from being sound.
    pub fn sound<M: Manner>(&self) -> Result<(), Fault> {
        self.parameters_in_range()?;
        self.check_rows::<M>()
    }

    /// Writes the book into the room and returns how many bytes it has; refusals 3, 19, 5, 7, 8, 10 and 20 leave the
    /// room.
    pub fn write<M: Manner>(&self, room: &mut [u8]) -> Result<usize, Fault> {
        if ![1, 2].contains(&self.edition) {
            return Err((3, 0));
        }
        if self.rows.len() > MOST_OFFERS {
            return Err((19, 0));
        }
        self.sound::<M>()?;
        let bytes = BLOCK * (1 + self.rows.len().div_ceil(PLACES));
        let book = room.get_mut(..bytes).ok_or((20, 0))?;
        let (blocks, _) = book.as_chunks_mut::<BLOCK>();
        self.write_head(&mut blocks[0]);
        for ((block, rows), number) in blocks[1..].iter_mut().zip(self.rows.chunks(PLACES)).zip(1..) {
            write_rows(block, number, rows, self.edition);
        }
        Ok(bytes)
    }

    /// Refusal 5.
    fn parameters_in_range(&self) -> Result<(), Fault> {
        let within = |value: Option<u32>, least, most| value.is_none_or(|value| (least..=most).contains(&value));
        let [cost, offset, outage, requirement, margin] = self.values;
        let field = if !(2022..=2099).contains(&self.year) {
            1
        } else if !within(cost, 1, 1_000_000) {
            2
        } else if !within(offset, 0, cost.unwrap_or(1_000_000)) {
            3
        } else if !within(outage, 0, 5_000) {
            4
        } else if !within(requirement, 1_000, 2_000_000) {
            5
        } else if !within(margin, 0, 5_000) || margin.is_some() && self.year > 2025 {
            6
        } else {
            return Ok(());
        };
        Err((5, field))
    }

    /// Refusals 7, 8 and 10.
    fn check_rows<M: Manner>(&self) -> Result<(), Fault> {
        let mut seen = HashSet::with_capacity_and_hasher(self.rows.len(), M::Hashing::default());
        let most = if self.edition == 1 { 1 } else { 10 };
        for (at, row) in self.rows.iter().enumerate() {
            if !row.in_range() || !(1..=most).contains(&row.step) {
                return Err((7, at as u32));
            }
            if row.step == 1 {
                if !seen.insert(row.resource) {
                    return Err((8, at as u32));
                }
            } else if at == 0 || !row.follows(&self.rows[at - 1]) {
                return Err((10, at as u32));
            }
        }
        Ok(())
    }

    fn write_head(&self, block: &mut [u8; BLOCK]) {
        block.fill(0);
        block[..4].copy_from_slice(b"RPMB");
        block[4..6].copy_from_slice(&(self.edition as u16).to_le_bytes());
        block[6..8].copy_from_slice(&(self.year as u16).to_le_bytes());
        block[24..26].copy_from_slice(&(self.rows.len() as u16).to_le_bytes());
        for (bit, (value, at)) in self.values.into_iter().zip(VALUES_AT).enumerate() {
            block[at..at + 4].copy_from_slice(&value.unwrap_or(0).to_le_bytes());
            block[26] |= u8::from(value.is_some()) << bit;
        }
        seal(block);
    }
}

impl Row {
    fn in_range(&self) -> bool {
        self.resource != 0
            && self.seller != 0
            && self.price.is_none_or(|price| price <= 1_000_000)
            && (1..=200_000).contains(&self.quantity)
            && self.block.is_none_or(|block| (1..=self.quantity).contains(&block))
    }

    /// Whether a row past step 1 keeps the step rules: prices are compared where both are given.
    fn follows(&self, before: &Row) -> bool {
        let falls = before.price.zip(self.price).is_some_and(|(before, price)| price < before);
        before.resource == self.resource && before.step + 1 == self.step && !falls && self.block.is_none()
    }

    fn write(&self, place: &mut [u8; PLACE], edition: u32) {
        place[..4].copy_from_slice(&self.resource.to_le_bytes());
        place[4..8].copy_from_slice(&self.seller.to_le_bytes());
        place[8..12].copy_from_slice(&self.price.unwrap_or(0).to_le_bytes());
        place[12..16].copy_from_slice(&self.quantity.to_le_bytes());
        place[16..20].copy_from_slice(&self.block.unwrap_or(0).to_le_bytes());
        place[20..28].copy_from_slice(&self.stamp.to_le_bytes());
        let marks = u32::from(self.price.is_some()) + 2 * u32::from(self.block.is_some());
        let step = if edition == 1 { 0 } else { self.step };
        place[28..].copy_from_slice(&(marks + 256 * step).to_le_bytes());
    }
}

fn write_rows(block: &mut [u8; BLOCK], number: u16, rows: &[Row], edition: u32) {
    block[..4].copy_from_slice(b"OFRS");
    block[4..6].copy_from_slice(&number.to_le_bytes());
    block[6..8].copy_from_slice(&(rows.len() as u16).to_le_bytes());
    block[8..28].fill(0);
    let (places, _) = block[28..508].as_chunks_mut::<PLACE>();
    let (used, unused) = places.split_at_mut(rows.len());
    used.iter_mut().zip(rows).for_each(|(place, row)| row.write(place, edition));
    unused.as_flattened_mut().fill(0);
    seal(block);
}

pub fn seal(block: &mut [u8; BLOCK]) {
    let (plain, placed) = sums(block);
    block[508..510].copy_from_slice(&plain.to_le_bytes());
    block[510..].copy_from_slice(&placed.to_le_bytes());
}
