//! Writing books through the C interface.

use ozpinduru::Edition::{First, Second};
use ozpinduru::{
    clear, convert, convert_into, read, write, write_into, CentsPerMwDay, DollarsPerMwYear, Field, Offer, Parameters, Refusal,
    Tenths,
};
use ozpinduru::{MOST_BYTES, MOST_ROWS, MOST_STEPS};
use std::ffi::OsStr;
use std::path::{Path, PathBuf};
use std::{fs, iter};

const NONE: Parameters = Parameters { year: 2022, cost: None, offset: None, outage: None, requirement: None, margin: None };
const FIRST: Offer = offer(1);

const fn offer(resource: u32) -> Offer {
    Offer { resource, seller: 7, price: None, quantity: Tenths(10), block: None, stamp: 0, step: 1 }
}

fn rows(number: usize) -> Vec<Offer> {
    (1..=number as u32).map(offer).collect()
}

/// Every book that ships with the project.
fn shipped() -> impl Iterator<Item = PathBuf> {
    let top = Path::new(env!("CARGO_MANIFEST_DIR")).join("../..");
    let folders = ["crates/verdicts/data", "tests/clearings", "tests/comparisons", "tests/explain", "examples"];
    let entries = folders.into_iter().flat_map(move |folder| fs::read_dir(top.join(folder)).unwrap());
    let files = entries.map(|entry| entry.unwrap().path());
    files.filter(|path| path.extension() == Some(OsStr::new("book")))
}

/// The line of each book of crates/verdicts says whether it is sound, or by what it is not.
fn soundness(path: &Path) -> Option<String> {
    let lines = fs::read_to_string(path.parent()?.join("../stdout")).ok()?;
    let name = format!("{}: ", path.file_name()?.to_str()?);
    lines.lines().find(|line| line.starts_with(&name)).map(|line| line.split(", ").nth(1).unwrap().to_string())
}

#[test]
fn every_book_that_ships_is_read_and_written_back() {
    let (mut same, mut unsound) = (0, 0);
    for path in shipped() {
        let bytes = fs::read(&path).unwrap();
        let Ok(book) = read(&bytes) else { continue };
        let said = match write(book.edition, &book.parameters, &book.offers) {
            Ok(written) => {
                assert!(written == bytes, "{}", path.display());
                same += 1;
                "sound".to_string()
            }
            Err(refusal) => {
                unsound += 1;
                format!("unsound {} {}", refusal.number(), refusal.place())
            }
        };
        assert!(soundness(&path).is_none_or(|verdict| verdict == said), "{}: {said}", path.display());
    }
    assert!(same >= 90 && unsound >= 50, "{same} and {unsound}");
}

#[test]
fn missing_values_are_written_as_missing() {
    let offers = [FIRST, Offer { price: Some(CentsPerMwDay(0)), block: Some(Tenths(10)), stamp: u64::MAX, ..offer(2) }];
    let cheap = Parameters { cost: Some(DollarsPerMwYear(1)), offset: Some(DollarsPerMwYear(0)), margin: Some(0), ..NONE };
    for parameters in [NONE, cheap] {
        let book = read(&write(First, &parameters, &offers).unwrap()).unwrap();
        assert_eq!((book.parameters, &book.offers[..]), (parameters, &offers[..]));
    }
}

#[test]
fn what_no_sound_book_says_is_refused() {
    let year = |year| Parameters { year, ..NONE };
    let offset = Parameters { offset: Some(DollarsPerMwYear(1_000_001)), ..NONE };
    for (parameters, field) in [(year(2021), Field::Year), (year(65_536 + 2_022), Field::Year), (offset, Field::Offset)] {
        assert_eq!(write(First, &parameters, &[FIRST, FIRST]), Err(Refusal::ParameterOutOfRange(field)));
    }
    let wrong = Offer { price: Some(CentsPerMwDay(1_000_001)), ..FIRST };
    assert_eq!(write(First, &NONE, &[offer(2), wrong]), Err(Refusal::OfferOutOfRange { row: 1 }));
    assert_eq!(write(First, &NONE, &[FIRST, offer(2), FIRST, wrong]), Err(Refusal::RepeatedResource { row: 2 }));
}

#[test]
fn more_rows_than_a_book_has_are_refused_first() {
    assert_eq!(write(First, &NONE, &rows(MOST_ROWS)).map(|book| book.len()), Ok(MOST_BYTES));
    for number in [MOST_ROWS + 1, MOST_ROWS + 2, 10_000] {
        assert_eq!(write(Second, &Parameters { year: 0, ..NONE }, &rows(number)), Err(Refusal::TooManyRows));
    }
}

#[test]
fn room_is_kept_by_a_refusal_and_past_the_book() {
    for (number, bytes) in [(0, 512), (1, 1_024), (15, 1_024), (16, 1_536), (600, MOST_BYTES)] {
        let (offers, before): (_, Vec<u8>) = (rows(number), iter::repeat_n(0xA5, bytes + 9).collect());
        let mut room = before.clone();
        assert_eq!(write_into(First, &NONE, &offers, &mut room[..bytes - 1]), Err(Refusal::ShortRoom));
        assert_eq!(write_into(First, &NONE, &offers, &mut []), Err(Refusal::ShortRoom));
        assert_eq!(room, before);
        assert_eq!(write_into(First, &NONE, &offers, &mut room), Ok(bytes));
        assert_eq!((&room[..bytes], &room[bytes..]), (&write(First, &NONE, &offers).unwrap()[..], &before[bytes..]));
    }
}

/// The steps of a resource, from 1 on.
fn run(resource: u32, steps: u32) -> Vec<Offer> {
    (1..=steps).map(|step| Offer { step, price: Some(CentsPerMwDay(step)), ..offer(resource) }).collect()
}

#[test]
fn steps_are_written_and_read_in_the_second_edition() {
    let offers = [run(7, MOST_STEPS), run(5, 2), run(6, 1)].concat();
    let book = read(&write(Second, &NONE, &offers).unwrap()).unwrap();
    assert_eq!((book.edition, book.parameters, &book.offers), (Second, NONE, &offers));
    assert_eq!(write(First, &NONE, &offers), Err(Refusal::OfferOutOfRange { row: 1 }));
    let ones = rows(16);
    assert_eq!(read(&write(Second, &NONE, &ones).unwrap()).unwrap().offers, ones);
    assert_ne!(write(First, &NONE, &ones), write(Second, &NONE, &ones));
}

#[test]
fn steps_that_break_their_rules_are_refused() {
    for step in [0, MOST_STEPS + 1, 255, 257, 65_537, u32::MAX] {
        assert_eq!(write(Second, &NONE, &[offer(2), Offer { step, ..FIRST }]), Err(Refusal::OfferOutOfRange { row: 1 }));
    }
    let broken = |change: fn(&mut Vec<Offer>)| {
        let mut offers = run(7, 3);
        change(&mut offers);
        write(Second, &NONE, &offers).map(|_| ())
    };
    let second = Err(Refusal::BrokenSteps { row: 1 });
    assert_eq!(broken(|offers| offers.retain(|offer| offer.step != 2)), second);
    assert_eq!(broken(|offers| offers[1].resource = 8), second);
    assert_eq!(broken(|offers| offers[1].price = Some(CentsPerMwDay(0))), second);
    assert_eq!(broken(|offers| offers[1].block = Some(Tenths(1))), second);
    assert_eq!(broken(|offers| offers.retain(|offer| offer.step != 1)), Err(Refusal::BrokenSteps { row: 0 }));
    assert_eq!(broken(|offers| offers[1].step = 1), Err(Refusal::RepeatedResource { row: 1 }));
    assert_eq!(broken(|offers| (offers[1].price, offers[2].price) = (None, Some(CentsPerMwDay(0)))), Ok(()));
}

#[test]
fn every_sound_book_that_ships_goes_there_and_back() {
    let (mut up, mut down, mut later) = (0, 0, 0);
    for path in shipped() {
        let bytes = fs::read(&path).unwrap();
        match (convert(&bytes), read(&bytes).and_then(|book| write(book.edition, &book.parameters, &book.offers))) {
            (Ok(other), Ok(_)) => {
                let (one, two) = (read(&bytes).unwrap(), read(&other).unwrap());
                assert_eq!((one.parameters, &one.offers), (two.parameters, &two.offers), "{}", path.display());
                assert_ne!(one.edition, two.edition, "{}", path.display());
                assert_eq!(clear(&other), clear(&bytes), "{}", path.display());
                assert!(convert(&other).unwrap() == bytes, "{}", path.display());
                *(if one.edition == First { &mut up } else { &mut down }) += 1;
            }
            (Err(Refusal::LaterStep { row }), Ok(_)) => {
                let steps = read(&bytes).unwrap().offers.iter().position(|offer| offer.step > 1);
                assert_eq!(steps, Some(row as usize), "{}", path.display());
                later += 1;
            }
            (found, due) => assert_eq!(found.unwrap_err(), due.unwrap_err(), "{}", path.display()),
        }
    }
    assert!(up >= 90 && down >= 4 && later >= 10, "{up} up, {down} down, {later} with later steps");
}

#[test]
fn room_for_the_other_edition() {
    let bytes = write(First, &NONE, &rows(16)).unwrap();
    let mut room = vec![0xA5; bytes.len() + 9];
    assert_eq!(convert_into(&bytes, &mut room[..bytes.len() - 1]), Err(Refusal::ShortRoom));
    assert!(room.iter().all(|&byte| byte == 0xA5));
    assert_eq!(convert_into(&bytes, &mut room), Ok(bytes.len()));
    assert!(room[..bytes.len()] == convert(&bytes).unwrap() && room[bytes.len()..].iter().all(|&byte| byte == 0xA5));
    assert_eq!(convert(&vec![0; 100_000]), Err(Refusal::WrongLength));
}
