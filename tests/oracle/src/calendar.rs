//! The delivery year, from 1 June of one year to 31 May of the next.

/// The days of the delivery year that starts in `year`: one more where there is a 29 February before the next 31 May.
pub fn days(year: u32) -> u64 {
    let year = u64::from(year);
    365 + leap_days(year + 1) - leap_days(year)
}

/// How many years up to this one have a 29 February: every fourth, but of the full centuries only every fourth.
fn leap_days(year: u64) -> u64 {
    year / 4 - year / 100 + year / 400
}
