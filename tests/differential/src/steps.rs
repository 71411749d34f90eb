//! What a book shows of editions and steps.

use oracle::book::{Book, Offer, STEP_AT};
use oracle::limits::{step_breach, Breach};
use oracle::{sound, Clearing, Outcome};

/// The kinds that a book is of.
pub fn shown(bytes: &[u8], read: Option<&Book>, outcome: &Outcome) -> Vec<&'static str> {
    let Some(book) = read else {
        return step_in_edition_1(bytes, outcome).into_iter().collect();
    };
    let mut kinds: Vec<&str> = (book.edition == 2).then_some("edition 2").into_iter().collect();
    match outcome {
        Outcome::Cleared(clearing) => kinds.extend(cleared(book, clearing)),
        Outcome::Refused { number, place } => kinds.extend(refused(*number, *place as usize, &book.offers)),
    }
    kinds.extend((fall_past_missing(&book.offers) && sound(bytes).is_none()).then_some("prices fall past a missing one"));
    kinds
}

/// Whether a book of edition 1 is refused by 3 at a block that has a step.
fn step_in_edition_1(bytes: &[u8], outcome: &Outcome) -> Option<&'static str> {
    let &Outcome::Refused { number: 3, place: block @ 1.. } = outcome else { return None };
    let places = bytes[512 * block as usize + 28..].chunks(32).take(15);
    (bytes[4] == 1 && places.into_iter().any(|place| place[STEP_AT] > 0)).then_some("step in edition 1")
}

fn cleared(book: &Book, clearing: &Clearing) -> Vec<&'static str> {
    let offers = &book.offers;
    let tens = offers.len() == 600 && offers.iter().zip((1..=10).cycle()).all(|(offer, step)| offer.step == step);
    let past = |row: usize| offers[row].step > 1;
    let cut = |row: usize| {
        let before = clearing.rows[row - 1].cleared;
        past(row) && before > 0 && before < offers[row - 1].quantity && clearing.rows[row].cleared == 0
    };
    let kinds = [
        ((0..offers.len()).any(past), "cleared with steps past 1"),
        (tens, "cleared in 60 runs of ten"),
        ((1..offers.len()).any(cut), "a step in part, the next none"),
    ];
    kinds.into_iter().filter(|(holds, _)| *holds).map(|(_, kind)| kind).collect()
}

/// What a row is refused for, where that is its step or a step of its resource.
fn refused(number: u32, row: usize, offers: &[Offer]) -> Option<&'static str> {
    match number {
        7 if offers[row].step == 0 => Some("step 0"),
        7 if offers[row].step > 10 => Some("step over 10"),
        8 => {
            let run = offers[..row].iter().any(|earlier| earlier.resource == offers[row].resource && earlier.step > 1);
            run.then_some("step 1 repeats an earlier run")
        }
        10 => Some(match step_breach(offers, row).expect("a breach of the step rules") {
            Breach::NotNeighbouring => "steps not neighbouring",
            Breach::NotCountedUp => "steps not counted up",
            Breach::PriceFalls => "price that falls",
            Breach::Block => "block past step 1",
        }),
        _ => None,
    }
}

/// Whether a step has a lower price than the last before the one whose price is missing.
fn fall_past_missing(offers: &[Offer]) -> bool {
    offers.windows(3).any(|three| {
        let [first, between, last] = three else { unreachable!("three offers") };
        last.step > 2 && between.price.is_none() && first.price.zip(last.price).is_some_and(|(first, last)| last < first)
    })
}
