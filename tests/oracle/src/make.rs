//! Writes books, sound or not: values go in as they are given, in or out of range.

use crate::book::{sums, Book, Offer, Parameters, BLOCK, CHECKED, FIRST_PLACE, PLACE, PLACES, STEP_AT, VALUES_AT};

/// The parameters of the reference book.
pub fn reference() -> Parameters {
    let [cost, offset, outage, requirement] = [146_000, 73_000, 2_000, 10_000].map(Some);
    Parameters { year: 2026, cost, offset, outage, requirement, margin: None }
}

/// A flexible offer, step 1 of its resource.
pub fn offer(resource: u32, quantity: u32, price: u32, stamp: u64) -> Offer {
    Offer { resource, seller: 7, price: Some(price), quantity, block: None, stamp, step: 1 }
}

/// The book of edition 1 with these parameters and offers.
pub fn book(parameters: &Parameters, offers: &[Offer]) -> Vec<u8> {
    bytes(&Book { edition: 1, parameters: parameters.clone(), offers: offers.to_vec() })
}

/// The sealed blocks of a book, one after the other. Edition 1 has no bytes for a step.
pub fn bytes(book: &Book) -> Vec<u8> {
    let mut bytes = head(book);
    for (part, at) in book.offers.chunks(PLACES).zip(1..) {
        bytes.extend(offer_block(part, at, book.edition));
    }
    seal_all(&mut bytes);
    bytes
}

/// Puts the right sums at the end of every whole block.
pub fn seal_all(bytes: &mut [u8]) {
    for block in bytes.chunks_exact_mut(BLOCK) {
        let (plain, placed) = sums(block);
        put(block, 508, 2, plain);
        put(block, 510, 2, placed);
    }
}

/// Puts a number at a place, little-endian, in so many bytes.
pub fn put(bytes: &mut [u8], at: usize, width: usize, number: u64) {
    bytes[at..at + width].copy_from_slice(&number.to_le_bytes()[..width]);
}

fn head(book: &Book) -> Vec<u8> {
    let p = &book.parameters;
    let mut block = vec![0; BLOCK];
    block[..4].copy_from_slice(b"RPMB");
    put(&mut block, 4, 2, book.edition.into());
    put(&mut block, 6, 2, p.year.into());
    put(&mut block, 24, 2, book.offers.len() as u64);
    let values = [p.cost, p.offset, p.outage, p.requirement, p.margin];
    for (bit, (value, at)) in values.into_iter().zip(VALUES_AT).enumerate() {
        put_given(&mut block, at, value, 26, bit);
    }
    block
}

fn offer_block(offers: &[Offer], at: u64, edition: u32) -> Vec<u8> {
    let mut block = vec![0; BLOCK];
    block[..4].copy_from_slice(b"OFRS");
    put(&mut block, 4, 2, at);
    put(&mut block, 6, 2, offers.len() as u64);
    for (place, offer) in block[FIRST_PLACE..CHECKED].chunks_mut(PLACE).zip(offers) {
        put(place, 0, 4, offer.resource.into());
        put(place, 4, 4, offer.seller.into());
        put_given(place, 8, offer.price, 28, 0);
        put(place, 12, 4, offer.quantity.into());
        put_given(place, 16, offer.block, 28, 1);
        put(place, 20, 8, offer.stamp);
        if edition != 1 {
            put(place, STEP_AT, 1, offer.step.into());
        }
    }
    block
}

/// Puts a value and its mark, if it is given.
fn put_given(bytes: &mut [u8], at: usize, value: Option<u32>, marks: usize, bit: usize) {
    if let Some(value) = value {
        put(bytes, at, 4, value.into());
        bytes[marks] |= 1 << bit;
    }
}
