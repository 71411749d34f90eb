//! The books of crates/verdicts/data through the C interface, against the verdicts of crates/verdicts/stdout.

use ozpinduru::{clear, clear_into, read, Refusal, Tenths, MOST_ROWS};
use std::collections::BTreeSet;
use std::fs;
use std::path::Path;

const HELD: [Tenths; MOST_ROWS] = [Tenths(0xDEAD_BEEF); MOST_ROWS];

/// Each verdict's book, what the call says of it, and how many rows are read, in the words of the program `verdicts`.
fn verdicts() -> Vec<(Vec<u8>, String, usize)> {
    let home = Path::new(env!("CARGO_MANIFEST_DIR")).join("../../crates/verdicts");
    let lines = fs::read_to_string(home.join("stdout")).unwrap();
    let verdict = |line: &str| {
        let (name, words) = line.split_once(": ").unwrap();
        let (clearing, rest) = words.split_once(", ").unwrap();
        let rows = rest.split_once("rows ").unwrap().1.parse().unwrap();
        (fs::read(home.join("data").join(name)).unwrap(), clearing.to_string(), rows)
    };
    lines.lines().map(verdict).collect()
}

#[test]
fn every_book_has_its_verdict() {
    let verdicts = verdicts();
    assert!(verdicts.len() >= 96);
    for (book, clearing, rows) in verdicts {
        let (mut cleared, mut committed) = (HELD, HELD);
        let said = match clear_into(&book, &mut cleared, &mut committed) {
            Ok(quote) => {
                assert_eq!((quote.row_count, clear(&book).unwrap().rows.len()), (rows, rows));
                "accepted".to_string()
            }
            Err(refusal) => {
                assert_eq!((cleared, committed), (HELD, HELD));
                assert_eq!(clear(&book), Err(refusal));
                format!("refused {} {}", refusal.number(), refusal.place())
            }
        };
        assert_eq!(said, clearing);
        assert_eq!(read(&book).map_or(0, |book| book.offers.len()), rows);
    }
}

#[test]
fn every_refusal_of_a_book_occurs_and_has_its_sentence() {
    let refusals: Vec<Refusal> = verdicts().iter().filter_map(|(book, ..)| clear(book).err()).collect();
    let numbers: BTreeSet<u32> = refusals.iter().map(|refusal| refusal.number()).collect();
    assert!(numbers.into_iter().eq([1, 2, 3, 4, 5, 6, 7, 8, 10]));
    let sentences: BTreeSet<String> = refusals.iter().map(Refusal::to_string).collect();
    let places: BTreeSet<(u32, u32)> = refusals.iter().map(|refusal| (refusal.number(), refusal.place())).collect();
    assert_eq!(sentences.len(), places.len());
    assert!(sentences.contains("refused 6 at row 0: an offer has no price"));
    assert!(sentences.contains("refused 4 at field 2 (cost of new entry): a parameter is missing"));
    assert!(sentences.contains("refused 10 at row 1: a resource's steps do not stand in neighbouring rows counted up from 1, their prices fall, or a step past 1 has a minimum block"));
    assert!(sentences.contains("refused 2 at block 0: a block's check is wrong"));
}

#[test]
fn numbers_and_places_make_their_refusal_again() {
    for (number, place) in [
        (1, 0),
        (2, 40),
        (3, 0),
        (4, 2),
        (5, 1),
        (6, 599),
        (7, 0),
        (8, 1),
        (9, 2),
        (10, 599),
        (11, 1),
        (19, 0),
        (20, 0),
        (9, 3),
        (77, 5),
    ] {
        let refusal = Refusal::of(number, place);
        assert_eq!((refusal.number(), refusal.place()), (number, place));
        assert_eq!(matches!(refusal, Refusal::Unnamed { .. }), number == 77 || place == 3);
    }
    assert_eq!(Refusal::of(9, 1).to_string(), "refused 9 at buffer 1 (cleared): a result buffer has fewer entries than offers");
    assert_eq!(
        Refusal::of(11, 4).to_string(),
        "refused 11 at row 4: a row has a step of 2 or more, which edition 1 cannot hold"
    );
    assert_eq!(Refusal::of(19, 0).to_string(), "refused 19 at 0: more than 600 rows");
    assert_eq!(Refusal::of(20, 0).to_string(), "refused 20 at 0: the room lent is too small");
}

#[test]
fn two_threads_clear_one_book() {
    let (book, ..) = verdicts().into_iter().find(|(.., rows)| *rows == MOST_ROWS).unwrap();
    let once = clear(&book);
    std::thread::scope(|threads| {
        let others: Vec<_> = (0..2).map(|_| threads.spawn(|| (0..200).all(|_| clear(&book) == once))).collect();
        assert!(others.into_iter().all(|other| other.join().unwrap()));
    });
}
