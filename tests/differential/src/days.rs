//! The days of delivery years.

use crate::compare::same;
use oracle::calendar;
use oracle::random::Rng;
use ozpinduru::raw;

/// Compares the days of a year, near to those that books have, at the end of a century, or any; says of which kind it was.
pub fn days(rng: &mut Rng) -> Result<Vec<&'static str>, String> {
    let any = rng.draw() as u32;
    let year = rng.pick(&[2020 + any % 90, any / 100 * 100 + 99, any]);
    let due = calendar::days(year);
    // SAFETY: the call takes a number alone.
    same(&format!("the days of {year}"), u64::from(unsafe { raw::ozp_days(year) }), due)?;
    let century = (year % 100 == 99).then_some(if due == 366 { "long before a century" } else { "short before a century" });
    Ok([Some(if due == 366 { "year of 366 days" } else { "year of 365 days" }), century].into_iter().flatten().collect())
}
