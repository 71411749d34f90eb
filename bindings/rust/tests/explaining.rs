//! The pages of every book that ships, beside those that tests/explain/pages.py writes.

use ozpinduru::raw::{self, Text, NO_AMOUNT, NO_VALUE, PAGE_BYTES};
use ozpinduru::{explain, explain_head, explain_row, report};
use std::fs;
use std::path::{Path, PathBuf};
use std::process::Command;

/// What stands in the room before a call.
const HELD: u8 = 0xA5;

fn top() -> PathBuf {
    Path::new(env!("CARGO_MANIFEST_DIR")).join("../..")
}

/// Which page of a book: all of it, its head, or that of a row.
#[derive(Clone, Copy)]
enum Which {
    Page,
    Head,
    Row(usize),
}

impl Which {
    fn of(word: &str) -> Which {
        match word {
            "page" => Which::Page,
            "head" => Which::Head,
            row => Which::Row(row.parse().unwrap()),
        }
    }

    /// By the crate's own functions.
    fn said(self, book: &[u8]) -> Option<String> {
        match self {
            Which::Page => Some(explain(book)),
            Which::Head => Some(explain_head(book)),
            Which::Row(row) => explain_row(book, row),
        }
    }

    /// In the first bytes of a room, so many of them.
    fn put(self, book: &[u8], room: &mut [u8], lent: usize) -> Text {
        let (bytes, room) = (book.len(), room[..lent].as_mut_ptr());
        // SAFETY: the book and the room are lent with no more than their lengths.
        unsafe {
            match self {
                Which::Page => raw::ozp_explain(book.as_ptr(), bytes, room, lent),
                Which::Head => raw::ozp_explain_head(book.as_ptr(), bytes, room, lent),
                Which::Row(row) => raw::ozp_explain_row(book.as_ptr(), bytes, row, room, lent),
            }
        }
    }
}

/// Each page that is due: the book's path, which page of it, and its text, which is empty where there is none.
fn pages() -> Vec<(String, Which, String)> {
    let made = Command::new("python3").arg(top().join("tests/explain/pages.py")).output().unwrap();
    assert!(made.status.success(), "{}", String::from_utf8_lossy(&made.stderr));
    let (mut rest, mut pages) = (&String::from_utf8(made.stdout).unwrap()[..], vec![]);
    while let Some((line, texts)) = rest.split_once('\n') {
        let words: Vec<&str> = line.split(' ').collect();
        let (text, others) = texts.split_at(words[2].parse().unwrap());
        pages.push((words[0].to_string(), Which::of(words[1]), text.to_string()));
        rest = others;
    }
    pages
}

/// The answer and every byte of the room, in rooms that are just long enough, one byte short, longer, and none; the page of many rows
/// in the first two.
fn in_rooms(book: &[u8], which: Which, text: &str, name: &str) {
    let length = text.len();
    let rooms = [length, length.saturating_sub(1), length + 64, PAGE_BYTES, 0];
    for lent in rooms.into_iter().take(if length > 20_000 { 2 } else { 5 }) {
        let mut room = vec![HELD; lent + 64];
        let found = which.put(book, &mut room, lent);
        let (bytes, kind, put) = match length {
            0 => (0, raw::NONE, 0),
            _ if lent < length => (NO_AMOUNT, raw::REFUSED, 0),
            _ => (length as u64, raw::GIVEN, length),
        };
        let (number, place) = if kind == raw::REFUSED { (20, 0) } else { (NO_VALUE, NO_VALUE) };
        assert_eq!(found, Text { bytes, kind, number, place }, "{name} in {lent} bytes");
        assert!(
            room[..put] == text.as_bytes()[..put] && room[put..].iter().all(|&byte| byte == HELD),
            "{name} in {lent} bytes"
        );
    }
}

#[test]
fn every_book_that_ships_has_its_pages() {
    let (mut path, mut book) = (String::new(), vec![]);
    let pages = pages();
    assert!(pages.len() > 1_000);
    for (name, which, text) in pages {
        if name != path {
            book = fs::read(top().join(&name)).unwrap();
            path = name;
        }
        assert_eq!(which.said(&book).unwrap_or_default(), text, "{path}");
        in_rooms(&book, which, &text, &path);
    }
}

#[test]
fn rows_that_are_not_there_have_no_page() {
    let book = fs::read(top().join("examples/reference.book")).unwrap();
    assert_eq!([3, 599, 600, usize::MAX].map(|row| explain_row(&book, row)), [const { None }; 4]);
    assert_eq!((explain_row(&book[1..], 0), explain_row(&[], 0)), (None, None));
}

#[test]
fn a_refused_book_has_a_page() {
    let book = fs::read(top().join("crates/verdicts/data/no-price-in-row-0.book")).unwrap();
    assert_eq!(report(&book), "refused 6 0\n");
    assert!(explain(&book).contains("\nrefused 6 at row 0\n") && explain(&book) == explain_head(&book));
    assert!(explain_row(&book, 0).unwrap().contains("\n    price not entered\n"));
}
