//! The page of a book, whose words tests/explain compares: the numbers of its answer, or its refusal, and of one row.

use crate::compare::same;
use crate::texts::in_room;
use oracle::book::{Book, Fault, MOST_OFFERS};
use oracle::random::Rng;
use oracle::{Clearing, Outcome};
use ozpinduru::raw::{self, PAGE_BYTES};

/// One book of so many is explained, which takes longer than all else that is asked of it.
const SOME: usize = 16;

/// Compares the numbers of a book's page, its head and a row, with the oracle's, and their rooms; says what the page was of.
pub fn explain(book: &[u8], read: &Result<Book, Fault>, rng: &mut Rng) -> Result<Vec<&'static str>, String> {
    if rng.index(SOME) > 0 {
        return Ok(vec![]);
    }
    let outcome = oracle::clear(book, MOST_OFFERS, MOST_OFFERS);
    let head = ozpinduru::explain_head(book);
    let kind = match &outcome {
        Outcome::Cleared(clearing) => answer(&head, clearing)?,
        Outcome::Refused { number, place } => refusal(&head, *number, *place)?,
    };
    // SAFETY: the book and the room are lent with no more than their lengths.
    in_room(&head, PAGE_BYTES, rng, |room, lent| unsafe { raw::ozp_explain_head(book.as_ptr(), book.len(), room, lent) })?;
    let rows = read.as_ref().map_or(0, |book| book.offers.len());
    Ok(vec![kind, row(book, rows, &outcome, rng)?])
}

/// The first word behind a label at the start of a line.
fn shown<'a>(text: &'a str, label: &str) -> Result<&'a str, String> {
    let found = text.lines().find_map(|line| line.strip_prefix(label));
    found.and_then(|rest| rest.split_whitespace().next()).ok_or(format!("there is no line {label:?} in {text:?}"))
}

/// The number that a word shows, whatever separates its digits.
fn number(word: &str) -> u64 {
    word.chars().filter_map(|letter| letter.to_digit(10)).fold(0, |number, digit| number * 10 + u64::from(digit))
}

fn answer(head: &str, due: &Clearing) -> Result<&'static str, String> {
    let price = shown(head, "  price ")?;
    same("the price on the page", (price != "none:").then(|| number(price)), due.price.map(u64::from))?;
    same("the total on the page", number(shown(head, "  cleared ")?), due.total.into())?;
    same("the make-whole on the page", number(shown(head, "  make-whole ")?), due.make_whole)?;
    same("the daily total on the page", number(shown(head, "  daily total ")?), due.daily)?;
    same("the year total on the page", number(shown(head, "  year total ")?), due.year)?;
    Ok("answer explained")
}

fn refusal(head: &str, due: u32, place: u32) -> Result<&'static str, String> {
    let line = head.lines().find(|line| line.starts_with("refused ")).unwrap_or_default();
    let words: Vec<&str> = line.split(' ').collect();
    let found = (words.get(1).map(|word| number(word)), words.last().map(|word| number(word)));
    same("the refusal on the page", found, (Some(due.into()), Some(place.into())))?;
    Ok("refusal explained")
}

/// A row that is there, where there is one; else one that is not.
fn row(book: &[u8], rows: usize, outcome: &Outcome, rng: &mut Rng) -> Result<&'static str, String> {
    let at = if rows == 0 || rng.percent(10) { rows + rng.pick(&[0, 1, MOST_OFFERS]) } else { rng.index(rows) };
    let text = ozpinduru::explain_row(book, at);
    same("whether there is a row", text.is_some(), at < rows)?;
    let Some(text) = text else { return Ok("no such row") };
    // SAFETY: the book and the room are lent with no more than their lengths.
    in_room(&text, PAGE_BYTES, rng, |room, lent| unsafe { raw::ozp_explain_row(book.as_ptr(), book.len(), at, room, lent) })?;
    same("the row on its page", number(shown(&text, "row ")?), at as u64)?;
    let Outcome::Cleared(clearing) = outcome else { return Ok("row of a refused book explained") };
    let due = &clearing.rows[at];
    same("what the row clears on its page", number(shown(&text, "  cleared ")?), due.cleared.into())?;
    same("the row's make-whole on its page", number(shown(&text, "  make-whole ")?), due.make_whole)?;
    let committed = text.lines().find_map(|line| line.split_once(", committed ")).map(|(_, rest)| rest.split(' ').next());
    same("what the row commits on its page", committed.flatten().map(number), Some(due.committed.into()))?;
    Ok("row explained")
}
