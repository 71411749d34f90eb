//! Prices between cents.

use crate::CentsPerMwDay;
use std::cmp::Ordering;
use std::fmt;

/// A price between cents: whole cents and a remainder over its divisor. Two of them are compared by what they come to, exactly,
/// whatever their divisors; the whole cents are taken by name.
#[derive(Clone, Copy, Debug)]
pub struct ExactPrice {
    cents: CentsPerMwDay,
    remainder: u32,
    divisor: u32,
}

impl ExactPrice {
    /// A price as the library hands it over: the remainder is under the divisor.
    pub(crate) fn of(cents: u32, remainder: u32, divisor: u32) -> ExactPrice {
        ExactPrice { cents: CentsPerMwDay(cents), remainder, divisor }
    }

    /// The price rounded down, by which books clear.
    pub fn cents(self) -> CentsPerMwDay {
        self.cents
    }

    /// What rounding down leaves, in parts of a cent of which `divisor` make one.
    pub fn remainder(self) -> u32 {
        self.remainder
    }

    /// The width of the curve's line in tenths, and 1 where the curve is level; never 0.
    pub fn divisor(self) -> u32 {
        self.divisor
    }

    /// Cents times divisor plus remainder: over the divisor, this is the price in cents.
    pub fn numerator(self) -> u64 {
        u64::from(self.cents.0) * u64::from(self.divisor) + u64::from(self.remainder)
    }
}

/// A price of whole cents.
impl From<CentsPerMwDay> for ExactPrice {
    fn from(cents: CentsPerMwDay) -> ExactPrice {
        ExactPrice { cents, remainder: 0, divisor: 1 }
    }
}

impl Ord for ExactPrice {
    fn cmp(&self, other: &ExactPrice) -> Ordering {
        // Remainders are under their divisors, so that cents decide where they differ.
        let over = |a: &ExactPrice, b: &ExactPrice| u64::from(a.remainder) * u64::from(b.divisor);
        self.cents.cmp(&other.cents).then_with(|| over(self, other).cmp(&over(other, self)))
    }
}

impl PartialOrd for ExactPrice {
    fn partial_cmp(&self, other: &ExactPrice) -> Option<Ordering> {
        Some(self.cmp(other))
    }
}

impl PartialEq for ExactPrice {
    fn eq(&self, other: &ExactPrice) -> bool {
        self.cmp(other).is_eq()
    }
}

impl Eq for ExactPrice {}

impl fmt::Display for ExactPrice {
    /// The cents, and the remainder over its divisor where there is one: `18687 150/300`.
    fn fmt(&self, f: &mut fmt::Formatter) -> fmt::Result {
        match self.remainder {
            0 => write!(f, "{}", self.cents),
            remainder => write!(f, "{} {remainder}/{}", self.cents, self.divisor),
        }
    }
}
