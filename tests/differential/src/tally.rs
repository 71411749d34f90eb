//! How many calls of each kind a run meets.

use crate::compare::Compared;
use crate::kinds::KINDS;
use crate::steps;
use oracle::book::{self, Book, Offer, Parameters};
use oracle::random::{Call, Kind};
use oracle::{Clearing, Outcome};
use std::cmp::Reverse;
use std::collections::BTreeMap;

/// A run of so many calls has to meet every kind.
const ENOUGH: u64 = 10_000;

#[derive(Default)]
pub struct Tally {
    calls: u64,
    cleared: u64,
    met: BTreeMap<&'static str, u64>,
}

impl Tally {
    pub fn add(&mut self, call: &Call, compared: &Compared) {
        self.calls += 1;
        let read = book::read(&call.book).ok();
        let mut kinds = vec![kind(call), size(read.as_ref())];
        kinds.extend(&compared.kinds);
        kinds.extend(read.as_ref().and_then(|book| margin(&book.parameters, &compared.outcome)));
        kinds.extend(steps::shown(&call.book, read.as_ref(), &compared.outcome));
        match &compared.outcome {
            Outcome::Refused { number, place } => refusal(call, *number, *place, &mut kinds),
            Outcome::Cleared(clearing) => {
                self.cleared += 1;
                cleared(call, clearing, &read.map_or_else(Vec::new, |book| book.offers), &mut kinds);
            }
        }
        kinds.into_iter().for_each(|kind| *self.met.entry(kind).or_default() += 1);
    }

    /// Together with another worker's.
    pub fn and(mut self, other: Tally) -> Tally {
        self.calls += other.calls;
        self.cleared += other.cleared;
        other.met.into_iter().for_each(|(kind, times)| *self.met.entry(kind).or_default() += times);
        self
    }

    pub fn print(&self) {
        println!("{} books, {} cleared, {} refused: no difference", self.calls, self.cleared, self.calls - self.cleared);
        for line in KINDS {
            let counts: Vec<String> = line.iter().map(|kind| format!("{kind}: {}", self.met.get(kind).unwrap_or(&0))).collect();
            println!("    {}", counts.join(", "));
        }
    }

    /// The kinds that a run as long as this has to meet and did not.
    pub fn missing(&self) -> Vec<&str> {
        let unmet = KINDS.into_iter().flatten().copied().filter(|kind| !self.met.contains_key(kind));
        unmet.filter(|_| self.calls >= ENOUGH).collect()
    }
}

fn kind(call: &Call) -> &'static str {
    match call.kind {
        Kind::Valid => "valid",
        Kind::Faulty => "faulty",
        Kind::Damaged => "damaged",
        Kind::Stray => "stray",
    }
}

fn size(read: Option<&Book>) -> &'static str {
    match read.map(|book| book.offers.len()) {
        None => "not laid out",
        Some(0) => "no offers",
        Some(1..=15) => "1 to 15 offers",
        Some(16..=599) => "16 to 599",
        Some(_) => "600",
    }
}

/// What came of the year and the margin of a book.
fn margin(p: &Parameters, outcome: &Outcome) -> Option<&'static str> {
    match outcome {
        Outcome::Cleared(_) => p.by_margin().then_some("cleared by a margin"),
        Outcome::Refused { number: 4, place: 6 } => Some("margin missing"),
        Outcome::Refused { number: 5, place: 1 } => Some("year of no curve"),
        Outcome::Refused { number: 5, place: 6 } if p.by_margin() => Some("margin over 5,000"),
        Outcome::Refused { number: 5, place: 6 } if p.margin == Some(0) => Some("margin of 0 past 2025"),
        Outcome::Refused { number: 5, place: 6 } => Some("other past 2025"),
        Outcome::Refused { .. } => None,
    }
}

fn refusal(call: &Call, number: u32, place: u32, kinds: &mut Vec<&'static str>) {
    kinds.push(KINDS[2][number as usize - 1]);
    if number == 9 {
        kinds.push(KINDS[3][place as usize - 1]);
    }
    if call.cleared_len > 0 && call.committed_len > 0 {
        kinds.push("buffers kept by a refusal");
    }
}

fn cleared(call: &Call, clearing: &Clearing, offers: &[Offer], kinds: &mut Vec<&'static str>) {
    let shown = [
        (clearing.price.is_none(), "no price"),
        (clearing.price == Some(0), "price 0"),
        (clearing.make_whole > 0, "make-whole"),
        (call.cleared_len.min(call.committed_len) > offers.len(), "buffers longer than the book"),
    ];
    kinds.extend(shown.into_iter().filter(|(holds, _)| *holds).map(|(_, kind)| kind));
    kinds.extend(contest(clearing, offers));
}

/// By which key the last of the spare tenths was won, if there were any: the level that they belong to is the dearest that
/// clears.
fn contest(clearing: &Clearing, offers: &[Offer]) -> Option<&'static str> {
    let rows = || offers.iter().zip(&clearing.rows);
    let dearest = rows().filter(|(_, row)| row.cleared > 0).map(|(offer, _)| offer.price).max()?;
    let level = || rows().filter(|(offer, _)| offer.price == dearest);
    let amount: u64 = level().map(|(_, row)| u64::from(row.cleared)).sum();
    let sum: u64 = level().map(|(offer, _)| u64::from(offer.quantity)).sum();
    let product = |offer: &Offer| u64::from(offer.quantity) * amount;
    let spare = amount - level().map(|(offer, _)| product(offer) / sum).sum::<u64>();
    let mut turns: Vec<_> = level().map(|(offer, _)| (Reverse(product(offer) % sum), offer.stamp, offer.resource)).collect();
    turns.sort_unstable();
    let won = turns[(spare as usize).checked_sub(1)?];
    let lost = turns[spare as usize];
    Some(match (won.0 == lost.0, won.1 == lost.1, won.2 == lost.2) {
        (false, ..) => "spares by remainder",
        (true, false, _) => "by stamp",
        (true, true, false) => "by resource",
        (true, true, true) => "by step",
    })
}
