//! The units, kept apart: a yearly amount is not taken where a daily one belongs.

use std::fmt;

macro_rules! units {
    ($($(#[$doc:meta])* $name:ident($number:ty))*) => {
        $($(#[$doc])*
        #[repr(transparent)]
        #[derive(Clone, Copy, Debug, Default, PartialEq, Eq, PartialOrd, Ord, Hash)]
        pub struct $name(pub $number);

        impl fmt::Display for $name {
            fn fmt(&self, f: &mut fmt::Formatter) -> fmt::Result {
                self.0.fmt(f)
            }
        })*
    };
}

units! {
    /// Whole dollars per MW-year of installed capacity: the cost of new entry and the revenue offset.
    DollarsPerMwYear(u32)
    /// Whole cents per MW-day of unforced capacity: the prices of offers, of the curve and of the clearing.
    CentsPerMwDay(u32)
    /// Tenths of a megawatt.
    Tenths(u32)
    /// Tenths of a cent: a price times a quantity.
    Mills(u64)
}
