//! The delivery year.

use crate::raw;

/// The days of the delivery year that starts on 1 June of `year`: 366 where the February of the next year has 29 days, else 365.
///
/// ```
/// assert_eq!([2026, 2027, 2099].map(ozpinduru::days), [365, 366, 365]);
/// ```
pub fn days(year: u32) -> u32 {
    // SAFETY: the call takes a number alone, and is defined for every one.
    unsafe { raw::ozp_days(year) }
}
