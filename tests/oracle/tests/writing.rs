//! Writing books: what is refused, in which order, and that reading gives back what was written.

use oracle::book::{read, Book, Fault, Offer, Parameters, LONGEST};
use oracle::make::{offer, reference};
use oracle::random::{call, contents::contents, Rng};
use oracle::sound;
use std::fs;
use std::path::Path;

/// What a book of edition 1 would say.
fn first(parameters: &Parameters, offers: &[Offer]) -> Book {
    Book { edition: 1, parameters: parameters.clone(), offers: offers.to_vec() }
}

fn write(parameters: &Parameters, offers: &[Offer], room_len: usize) -> Result<Vec<u8>, Fault> {
    oracle::write(&first(parameters, offers), room_len)
}

fn rows(number: u32) -> Vec<Offer> {
    (1..=number).map(|at| offer(at, 10, at, 1)).collect()
}

#[test]
fn the_reference_book() {
    let offers = [offer(11, 9_900, 10_000, 1), offer(12, 200, 37_500, 2), offer(13, 100, 37_500, 3)];
    let [first, second, third] = offers;
    let offers = [first, second, Offer { block: Some(50), ..third }];
    let shipped = fs::read(Path::new(env!("CARGO_MANIFEST_DIR")).join("../../examples/reference.book")).unwrap();
    assert_eq!(write(&reference(), &offers, LONGEST), Ok(shipped));
}

#[test]
fn refusals_in_order() {
    let wrong = Parameters { year: 1999, ..reference() };
    let mut offers = rows(601);
    offers[0].quantity = 0;
    assert_eq!(write(&wrong, &offers, 0), Err((19, 0)));
    offers.pop();
    assert_eq!(write(&wrong, &offers, 0), Err((5, 1)));
    assert_eq!(write(&reference(), &offers, 0), Err((7, 0)));
    (offers[0].quantity, offers[3].resource, offers[4].seller) = (1, 3, 0);
    assert_eq!(write(&reference(), &offers, 0), Err((8, 3)));
    let offers = rows(600);
    assert_eq!(write(&reference(), &offers, LONGEST - 1), Err((20, 0)));
    assert_eq!(write(&reference(), &offers, LONGEST).map(|book| book.len()), Ok(LONGEST));
    assert_eq!(write(&reference(), &[], 511), Err((20, 0)));
    assert_eq!(write(&reference(), &[], 512).map(|book| book.len()), Ok(512));
}

#[test]
fn a_number_too_wide_for_its_bytes_is_out_of_range() {
    for year in [65_536, 65_536 + 2_026, u32::MAX] {
        assert_eq!(write(&Parameters { year, ..reference() }, &[], LONGEST), Err((5, 1)));
    }
}

#[test]
fn missing_values_are_written_and_read_as_missing() {
    let none = Parameters { year: 2022, cost: None, offset: Some(1_000_000), outage: None, requirement: None, margin: None };
    let offers = [Offer { price: None, ..offer(1, 10, 0, u64::MAX) }, offer(2, 10, 0, 0)];
    let book = write(&none, &offers, LONGEST).unwrap();
    assert_eq!(read(&book), Ok(first(&none, &offers)));
}

/// The books that ship, and random ones: those that are sound are written back byte for byte, and the others are refused as
/// soundness is.
#[test]
fn books_are_written_back() {
    let data = Path::new(env!("CARGO_MANIFEST_DIR")).join("../../crates/verdicts/data");
    let shipped = fs::read_dir(data).unwrap().map(|entry| fs::read(entry.unwrap().path()).unwrap());
    let mut written = 0;
    for bytes in shipped.chain((0..2_000).map(|seed| call(seed).book)) {
        if let Ok(book) = read(&bytes) {
            let due = sound(&bytes).map_or(Ok(bytes), Err);
            written += u32::from(due.is_ok());
            assert_eq!(oracle::write(&book, LONGEST), due);
        }
    }
    assert!(written > 1_000, "{written}");
}

#[test]
fn what_was_written_is_sound_and_is_read_back() {
    let mut seen = [0; 21];
    let mut rng = Rng::new(1);
    for _ in 0..5_000 {
        let due = contents(&mut rng);
        match oracle::write(&due, rng.pick(&[LONGEST, LONGEST, LONGEST, 2_048])) {
            Err((number, _)) => seen[number as usize] += 1,
            Ok(book) => {
                seen[0] += 1;
                assert_eq!(sound(&book), None);
                assert_eq!(read(&book), Ok(due));
            }
        }
    }
    println!("written, then refused by number: {seen:?}");
    assert!([0, 3, 5, 7, 8, 10, 19, 20].iter().all(|&number| seen[number] >= 100), "{seen:?}");
}
