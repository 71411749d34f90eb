//! The book's bytes: length, checks, layout, and the values that stand in them.

pub use crate::parameters::Parameters;

/// A refusal's number and place.
pub type Fault = (u32, u32);

pub const BLOCK: usize = 512;
pub const CHECKED: usize = 508;
pub const PLACE: usize = 32;
pub const PLACES: usize = 15;
pub const FIRST_PLACE: usize = 28;
pub const MOST_OFFERS: usize = 600;
pub const LONGEST: usize = 20_992;
/// Where C, E, F, R and the reserve margin stand in block 0, in the order of their marks.
pub const VALUES_AT: [usize; 5] = [8, 12, 16, 20, 28];
/// Where edition 2 has the step in a place.
pub const STEP_AT: usize = 29;

/// The values of one place.
#[derive(Clone, Debug, PartialEq, Eq)]
pub struct Offer {
    pub resource: u32,
    pub seller: u32,
    pub price: Option<u32>,
    pub quantity: u32,
    pub block: Option<u32>,
    pub stamp: u64,
    pub step: u32,
}

/// A book that passes 1 to 3.
#[derive(Clone, Debug, PartialEq, Eq)]
pub struct Book {
    pub edition: u32,
    pub parameters: Parameters,
    pub offers: Vec<Offer>,
}

/// Reads a book: refused by 1, then by 2 at the lowest block, then by 3 at the lowest block.
pub fn read(bytes: &[u8]) -> Result<Book, Fault> {
    if !bytes.len().is_multiple_of(BLOCK) || bytes.len() < BLOCK || bytes.len() > LONGEST {
        return Err((1, 0));
    }
    let blocks: Vec<&[u8]> = bytes.chunks(BLOCK).collect();
    if let Some(at) = blocks.iter().position(|block| !check_holds(block)) {
        return Err((2, at as u32));
    }
    if let Some(at) = (0..blocks.len()).find(|&at| !laid_out(&blocks, at)) {
        return Err((3, at as u32));
    }
    let edition = edition(&blocks);
    let offers = (0..count(&blocks)).map(|row| offer(place(bytes, row), edition)).collect();
    Ok(Book { edition, parameters: parameters(blocks[0]), offers })
}

/// The bytes of a row, chosen by block and place.
pub fn place(bytes: &[u8], row: usize) -> &[u8] {
    let start = BLOCK * (1 + row / PLACES) + FIRST_PLACE + PLACE * (row % PLACES);
    &bytes[start..start + PLACE]
}

/// The two sums of a block's first 508 bytes: plain, and each byte times its position counted from 1.
pub fn sums(block: &[u8]) -> (u64, u64) {
    let plain: u64 = block[..CHECKED].iter().map(|&byte| u64::from(byte)).sum();
    let placed: u64 = block[..CHECKED].iter().zip(1..).map(|(&byte, position)| u64::from(byte) * position).sum();
    (plain % 65_536, placed % 65_536)
}

fn check_holds(block: &[u8]) -> bool {
    sums(block) == (number(block, 508, 2), number(block, 510, 2))
}

/// The little-endian number of so many bytes at a place.
fn number(bytes: &[u8], at: usize, width: usize) -> u64 {
    bytes[at..at + width].iter().rev().fold(0, |number, &byte| 256 * number + u64::from(byte))
}

fn number32(bytes: &[u8], at: usize) -> u32 {
    number(bytes, at, 4) as u32
}

fn zero(bytes: &[u8]) -> bool {
    bytes.iter().all(|&byte| byte == 0)
}

fn marked(marks: u8, bit: u32) -> bool {
    marks >> bit & 1 == 1
}

/// The edition that block 0 tells.
fn edition(blocks: &[&[u8]]) -> u32 {
    number(blocks[0], 4, 2) as u32
}

/// The number of offers that block 0 tells.
fn count(blocks: &[&[u8]]) -> usize {
    number(blocks[0], 24, 2) as usize
}

/// Whether a block is laid out as the outline says. Later blocks are asked only after block 0 has passed.
fn laid_out(blocks: &[&[u8]], at: usize) -> bool {
    if at == 0 {
        head_laid_out(blocks[0]) && count_fits(count(blocks), blocks.len())
    } else {
        offers_laid_out(blocks[at], at, (count(blocks) - PLACES * (at - 1)).min(PLACES), edition(blocks))
    }
}

fn count_fits(offers: usize, blocks: usize) -> bool {
    offers <= MOST_OFFERS && blocks == 1 + offers.div_ceil(PLACES)
}

fn head_laid_out(block: &[u8]) -> bool {
    let marks = block[26];
    &block[..4] == b"RPMB"
        && [1, 2].contains(&number(block, 4, 2))
        && marks < 32
        && block[27] == 0
        && zero(&block[32..CHECKED])
        && VALUES_AT.iter().zip(0..).all(|(&at, bit)| marked(marks, bit) || zero(&block[at..at + 4]))
}

fn offers_laid_out(block: &[u8], at: usize, used: usize, edition: u32) -> bool {
    let (places, unused) = block[FIRST_PLACE..CHECKED].split_at(PLACE * used);
    &block[..4] == b"OFRS"
        && number(block, 4, 2) == at as u64
        && number(block, 6, 2) == used as u64
        && zero(&block[8..FIRST_PLACE])
        && places.chunks(PLACE).all(|place| place_laid_out(place, edition))
        && zero(unused)
}

/// Edition 2 has any step in byte 29, where edition 1 has a zero.
fn place_laid_out(place: &[u8], edition: u32) -> bool {
    let marks = place[28];
    marks < 4
        && (edition == 2 || place[STEP_AT] == 0)
        && zero(&place[30..])
        && (marked(marks, 0) || zero(&place[8..12]))
        && (marked(marks, 1) || zero(&place[16..20]))
}

fn parameters(block: &[u8]) -> Parameters {
    let given = |bit: usize| marked(block[26], bit as u32).then(|| number32(block, VALUES_AT[bit]));
    let [cost, offset, outage, requirement, margin] = [0, 1, 2, 3, 4].map(given);
    Parameters { year: number(block, 6, 2) as u32, cost, offset, outage, requirement, margin }
}

/// Books of edition 1 read as having step 1 throughout.
fn offer(place: &[u8], edition: u32) -> Offer {
    Offer {
        resource: number32(place, 0),
        seller: number32(place, 4),
        price: marked(place[28], 0).then(|| number32(place, 8)),
        quantity: number32(place, 12),
        block: marked(place[28], 1).then(|| number32(place, 16)),
        stamp: number(place, 20, 8),
        step: if edition == 1 { 1 } else { place[STEP_AT].into() },
    }
}
