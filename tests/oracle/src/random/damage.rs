//! Books with their bytes damaged.

use super::wrong::faulty;
use super::{offers_told, valid, Rng};
use crate::book::{BLOCK, CHECKED, FIRST_PLACE, PLACE, PLACES, VALUES_AT};
use crate::make;

/// A book with its bytes damaged once or twice. Two in three are sealed again, so that the checks no longer tell.
pub fn damaged(rng: &mut Rng) -> Vec<u8> {
    let mut bytes = if rng.percent(80) { valid::book(rng) } else { faulty(rng) };
    for _ in 0..rng.pick(&[1, 1, 1, 2]) {
        damage(rng, &mut bytes);
    }
    if rng.percent(66) {
        make::seal_all(&mut bytes);
    }
    if rng.percent(15) {
        change_length(rng, &mut bytes);
    }
    bytes
}

fn damage(rng: &mut Rng, bytes: &mut [u8]) {
    let blocks = bytes.len() / BLOCK;
    let at = rng.index(blocks);
    let used = offers_told(bytes).saturating_sub(PLACES * at.max(1) - PLACES).clamp(1, PLACES);
    let last = bytes.len() - BLOCK;
    let block = &mut bytes[BLOCK * at..][..BLOCK];
    match rng.draw() % 14 {
        0 => alter(rng, &mut block[..CHECKED]),
        1 => alter(rng, &mut block[CHECKED..]),
        2 => alter(rng, &mut block[..34]),
        3 => exchange(rng, &mut block[..CHECKED]),
        4 => keep_both_sums(rng, &mut block[..CHECKED]),
        5 => count_wrong(rng, &mut bytes[..BLOCK], 24),
        6 if at > 0 => count_wrong(rng, block, 6),
        7 => block[..4].copy_from_slice(rng.pick(&[b"RPMB", b"OFRS", b"BIDS", b"EVTS", b"rpmb", b"SRFO"])),
        8 => make::put(block, 4, 2, rng.pick(&[0, 1, 2, 3, 41, 256, 257, 258])),
        9 | 13 if at > 0 => {
            let place = FIRST_PLACE + PLACE * rng.index(used);
            spoil_place(rng, &mut block[place..place + PLACE]);
        }
        10 => alter(rng, &mut bytes[last + FIRST_PLACE..last + CHECKED]),
        11 => exchange_blocks(rng, bytes),
        _ => spoil_head(rng, &mut bytes[..BLOCK]),
    }
}

/// One byte altered to a different one, more often than others the first or the last.
fn alter(rng: &mut Rng, bytes: &mut [u8]) {
    let any = rng.index(bytes.len());
    let at = rng.pick(&[0, bytes.len() - 1, any, any, any, any]);
    bytes[at] ^= rng.pick(&[1, 2, 4, 128, 255, 3]);
}

/// Two bytes exchanged, half of the time neighbours.
fn exchange(rng: &mut Rng, bytes: &mut [u8]) {
    let at = rng.index(bytes.len() - 1);
    let other = if rng.percent(50) { at + 1 } else { rng.index(bytes.len()) };
    bytes.swap(at, other);
}

/// Two blocks exchanged whole, or one with itself.
fn exchange_blocks(rng: &mut Rng, bytes: &mut [u8]) {
    let blocks = bytes.len() / BLOCK;
    let (one, other) = (BLOCK * rng.index(blocks), BLOCK * rng.index(blocks));
    (0..BLOCK).for_each(|at| bytes.swap(one + at, other + at));
}

/// Three bytes altered in the one way that both sums miss: up by one, down by two, up by one.
fn keep_both_sums(rng: &mut Rng, bytes: &mut [u8]) {
    let fits = |three: &[u8]| three[0] < 255 && three[1] > 1 && three[2] < 255;
    let found: Vec<usize> = (0..bytes.len() - 2).filter(|&at| fits(&bytes[at..at + 3])).collect();
    if !found.is_empty() {
        let at = rng.pick(&found);
        bytes[at] += 1;
        bytes[at + 1] -= 2;
        bytes[at + 2] += 1;
    }
}

fn count_wrong(rng: &mut Rng, block: &mut [u8], at: usize) {
    let told = u64::from(u16::from_le_bytes([block[at], block[at + 1]]));
    let wrong = rng.pick(&[told + 1, told.saturating_sub(1), 0, 15, 16, 601, 65_535, told + 15]);
    make::put(block, at, 2, wrong);
}

/// Block 0: marks, the margin with its mark or without, the bytes set aside, or a byte that should be zero.
fn spoil_head(rng: &mut Rng, block: &mut [u8]) {
    match rng.draw() % 7 {
        0 => block[26] ^= 1 << rng.index(8),
        5 => block[26] = rng.between(0, 63) as u8,
        6 => other_marks(rng, block),
        1 => {
            block[26] |= 16;
            make::put(block, 28, 4, rng.pick(&[0, 1_500, 5_001]));
        }
        2 => make::put(block, 28, 4, 1_500),
        3 => make::put(block, 32, 2, rng.pick(&[1, 15, 600])),
        _ => alter(rng, &mut block[27..CHECKED]),
    }
}

/// Any five marks; a value that loses its mark loses its bytes.
fn other_marks(rng: &mut Rng, block: &mut [u8]) {
    block[26] = rng.between(0, 31) as u8;
    for (bit, at) in VALUES_AT.into_iter().enumerate() {
        if block[26] >> bit & 1 == 0 {
            make::put(block, at, 4, 0);
        }
    }
}

/// A place: marks, the step, which in edition 1 is zero, the byte set aside for events, or the byte behind them.
fn spoil_place(rng: &mut Rng, place: &mut [u8]) {
    match rng.draw() % 6 {
        0 | 1 => place[28] ^= 1 << rng.index(3),
        2 => place[28] ^= 1 << rng.index(8),
        3 | 4 => place[rng.pick(&[29, 29, 30, 31])] = rng.pick(&[0, 1, 2, 3, 11, 255]),
        _ => alter(rng, &mut place[..28]),
    }
}

fn change_length(rng: &mut Rng, bytes: &mut Vec<u8>) {
    let length = bytes.len();
    let blocks = length / BLOCK;
    let new = match rng.draw() % 5 {
        0 => rng.index(length + 1),
        1 => BLOCK * rng.index(blocks + 1),
        2 => length + 1 + rng.index(600),
        3 => length + BLOCK,
        _ => length - 1,
    };
    bytes.resize(new, 0);
}
