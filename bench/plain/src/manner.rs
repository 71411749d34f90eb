//! The two places in which plain Rust is written two ways: the hash of a resource number, and who is first among ties.

use std::cmp::Reverse;
use std::hash::{BuildHasher, BuildHasherDefault, Hasher, RandomState};

/// A tied row's turn for a spare tenth: its remainder, the largest first, its stamp, its resource and the row.
pub type Turn = (Reverse<u64>, u64, u32, usize);

pub trait Manner {
    type Hashing: BuildHasher + Default;
    /// Brings the first so many turns, one at least, to the front.
    fn bring_first(turns: &mut [Turn], many: usize);
}

/// As one writes it: the standard hash, and a sort.
pub struct Usual;

impl Manner for Usual {
    type Hashing = RandomState;

    fn bring_first(turns: &mut [Turn], _: usize) {
        turns.sort_unstable();
    }
}

/// Tuned: a hash of one multiplication, and a selection.
pub struct Tuned;

impl Manner for Tuned {
    type Hashing = BuildHasherDefault<NumberHasher>;

    fn bring_first(turns: &mut [Turn], many: usize) {
        turns.select_nth_unstable(many - 1);
    }
}

/// A quick hash of 32-bit numbers: one multiplication, its high bits folded onto its low ones.
#[derive(Default)]
pub struct NumberHasher(u64);

impl Hasher for NumberHasher {
    fn write(&mut self, _: &[u8]) {
        unreachable!("only 32-bit numbers are hashed")
    }

    fn write_u32(&mut self, number: u32) {
        let product = u64::from(number).wrapping_mul(0x9E37_79B9_7F4A_7C15);
        self.0 = product ^ product >> 32;
    }

    fn finish(&self) -> u64 {
        self.0
    }
}
