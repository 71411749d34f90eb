//! Books and calls from a seed: the same seed always gives the same call.
//!
//! About half of the calls clear. The others have values missing, out of range or repeated, or bytes damaged with the sums left
//! as they were or made right again, or a buffer too short.

mod columns;
pub mod contents;
pub mod damage;
pub mod pairs;
mod steps;
pub mod valid;
pub mod wrong;

use crate::book::MOST_OFFERS;

/// A small generator of numbers (splitmix64).
pub struct Rng(u64);

impl Rng {
    pub fn new(seed: u64) -> Rng {
        Rng(seed)
    }

    pub fn draw(&mut self) -> u64 {
        self.0 = self.0.wrapping_add(0x9E37_79B9_7F4A_7C15);
        let mixed = (self.0 ^ (self.0 >> 30)).wrapping_mul(0xBF58_476D_1CE4_E5B9);
        let mixed = (mixed ^ (mixed >> 27)).wrapping_mul(0x94D0_49BB_1331_11EB);
        mixed ^ (mixed >> 31)
    }

    /// A number from `least` to `most`.
    pub fn between(&mut self, least: u64, most: u64) -> u64 {
        least + self.draw() % (most - least + 1)
    }

    /// True so many times in a hundred.
    pub fn percent(&mut self, times: u64) -> bool {
        self.draw() % 100 < times
    }

    pub fn pick<T: Clone>(&mut self, from: &[T]) -> T {
        from[self.draw() as usize % from.len()].clone()
    }

    pub fn index(&mut self, length: usize) -> usize {
        self.draw() as usize % length
    }

    pub fn between32(&mut self, least: u32, most: u32) -> u32 {
        self.between(least.into(), most.into()) as u32
    }

    pub fn shuffle<T>(&mut self, list: &mut [T]) {
        for at in (1..list.len()).rev() {
            list.swap(at, self.index(at + 1));
        }
    }
}

/// What a random book is: valid, faulty in its values, damaged in its bytes, or bytes that never were a book.
#[derive(Clone, Copy, Debug, PartialEq, Eq)]
pub enum Kind {
    Valid,
    Faulty,
    Damaged,
    Stray,
}

/// A call: a book, what it is, and the lengths of the two result buffers.
#[derive(Clone, Debug)]
pub struct Call {
    pub kind: Kind,
    pub book: Vec<u8>,
    pub cleared_len: usize,
    pub committed_len: usize,
}

/// The call of a seed.
pub fn call(seed: u64) -> Call {
    let mut rng = Rng::new(seed);
    let (kind, book) = book(&mut rng);
    let offers = offers_told(&book);
    let (cleared_len, committed_len) = if rng.percent(90) {
        let long = [offers, offers, offers + 1, MOST_OFFERS.max(offers), offers + 100];
        (rng.pick(&long), rng.pick(&long))
    } else {
        let any = [offers.saturating_sub(1), offers / 2, 0, offers, offers + 5];
        (rng.pick(&any), rng.pick(&any))
    };
    Call { kind, book, cleared_len, committed_len }
}

/// The number of offers that block 0 tells, if it can be one.
pub(crate) fn offers_told(book: &[u8]) -> usize {
    match book.get(24..26) {
        Some(bytes) => usize::from(u16::from_le_bytes([bytes[0], bytes[1]])).min(MOST_OFFERS),
        None => 0,
    }
}

/// A random book: six in ten are valid.
pub fn book(rng: &mut Rng) -> (Kind, Vec<u8>) {
    match rng.draw() % 100 {
        0..=59 => (Kind::Valid, valid::book(rng)),
        60..=74 => (Kind::Faulty, wrong::faulty(rng)),
        75..=94 => (Kind::Damaged, damage::damaged(rng)),
        _ => (Kind::Stray, wrong::stray(rng)),
    }
}
