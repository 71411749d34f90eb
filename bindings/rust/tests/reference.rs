//! The outline's reference book through the C interface.

use ozpinduru::{clear, clear_into, compare, curve, days, price_at, quote, read, report, version, words};
use ozpinduru::{
    Buffer, CentsPerMwDay, Comparison, DollarsPerMwYear, Edition, Field, Mills, Offer, Parameters, Point, Refusal, Row, Tenths,
};
use std::fs;
use std::path::Path;

const REFERENCE: Parameters = Parameters {
    year: 2026,
    cost: Some(DollarsPerMwYear(146_000)),
    offset: Some(DollarsPerMwYear(73_000)),
    outage: Some(2_000),
    requirement: Some(Tenths(10_000)),
    margin: None,
};

const MISSING: &str = "refused 4 at field 6 (reserve margin): a parameter is missing";

fn book() -> Vec<u8> {
    fs::read(Path::new(env!("CARGO_MANIFEST_DIR")).join("../../examples/reference.book")).unwrap()
}

fn verdict(name: &str) -> Vec<u8> {
    fs::read(Path::new(env!("CARGO_MANIFEST_DIR")).join("../../crates/verdicts/data").join(name)).unwrap()
}

fn row((resource, cleared, committed, make_whole): (u32, u32, u32, u64)) -> Row {
    Row { resource, step: 1, cleared: Tenths(cleared), committed: Tenths(committed), make_whole: Mills(make_whole) }
}

#[test]
fn clears_as_the_outline_says() {
    let clearing = clear(&book()).unwrap();
    let rows = [(11, 9_900, 9_900, 0), (12, 67, 67, 0), (13, 33, 50, 637_500)].map(row);
    assert_eq!(clearing.rows, rows);
    let quote = quote(&book()).unwrap();
    assert_eq!((quote.total, quote.price, quote.row_count), (Tenths(10_000), Some(CentsPerMwDay(37_500)), 3));
    assert_eq!((quote.make_whole, quote.daily, quote.year), (Mills(637_500), Mills(375_637_500), Mills(137_107_687_500)));
    assert_eq!((clearing.total, clearing.price, clearing.year), (quote.total, quote.price, quote.year));
    let (mut cleared, mut committed) = ([Tenths(7); 5], [Tenths(8); 4]);
    assert_eq!(clear_into(&book(), &mut cleared, &mut committed), Ok(quote));
    assert_eq!((cleared.map(|t| t.0), committed.map(|t| t.0)), ([9_900, 67, 33, 7, 7], [9_900, 67, 50, 8]));
}

#[test]
fn buffers_of_the_right_length_are_enough_and_short_ones_are_unchanged() {
    let book = book();
    assert!(clear_into(&book, &mut [Tenths(0); 3], &mut [Tenths(0); 3]).is_ok());
    for (first, second, short) in [
        (2, 3, Buffer::Cleared),
        (3, 2, Buffer::Committed),
        (2, 2, Buffer::Cleared),
        (0, 0, Buffer::Cleared),
        (600, 0, Buffer::Committed),
    ] {
        let (mut cleared, mut committed) = (vec![Tenths(7); first], vec![Tenths(8); second]);
        assert_eq!(clear_into(&book, &mut cleared, &mut committed), Err(Refusal::ShortBuffer(short)));
        assert_eq!((cleared, committed), (vec![Tenths(7); first], vec![Tenths(8); second]));
    }
}

#[test]
fn a_book_says_its_values() {
    let book = read(&book()).unwrap();
    assert_eq!((book.edition, book.parameters), (Edition::First, REFERENCE));
    let offer = |resource, price, quantity, block: Option<u32>, stamp| Offer {
        resource,
        seller: 7,
        price: Some(CentsPerMwDay(price)),
        quantity: Tenths(quantity),
        block: block.map(Tenths),
        stamp,
        step: 1,
    };
    let due = [offer(11, 10_000, 9_900, None, 1), offer(12, 37_500, 200, None, 2), offer(13, 37_500, 100, Some(50), 3)];
    assert_eq!(book.offers, due);
    assert_eq!(read(&verdict("no-price-in-row-0.book")).unwrap().offers[0].price, None);
    assert_eq!(read(&verdict("missing-cost.book")).unwrap().parameters, Parameters { cost: None, ..REFERENCE });
    assert_eq!(read(&[]), Err(Refusal::WrongLength));
}

#[test]
fn a_row_has_its_step() {
    let steps = |name| clear(&verdict(name)).unwrap().rows.iter().map(|row| (row.resource, row.step)).collect::<Vec<_>>();
    assert!(steps("steps-1-to-10-of-one-resource.book").into_iter().eq((1..=10).map(|step| (5, step))));
    assert!(steps("steps-across-blocks.book")[13..].iter().copied().eq((1..=10).map(|step| (50, step))));
    assert!(steps("offers-16-need-two-blocks.book").into_iter().eq((1..=16).map(|resource| (resource, 1))));
    assert_eq!(read(&verdict("edition-2-no-offers.book")).unwrap().edition, Edition::Second);
    assert_eq!(clear(&verdict("step-2-twice.book")), Err(Refusal::BrokenSteps { row: 2 }));
}

#[test]
fn the_curve_has_its_points_and_prices() {
    let point = |(quantity, price)| Point { quantity: Tenths(quantity), price: CentsPerMwDay(price) };
    assert_eq!(curve(&REFERENCE).unwrap().points, [(9_900, 50_000), (10_150, 18_750), (10_450, 0)].map(point));
    for (k, price) in [(0, 50_000), (9_900, 50_000), (10_000, 37_500), (10_151, 18_687), (10_450, 0)] {
        assert_eq!(price_at(&REFERENCE, Tenths(k)).unwrap().unwrap().cents(), CentsPerMwDay(price));
    }
    assert_eq!([10_451, u32::MAX].map(|k| price_at(&REFERENCE, Tenths(k))), [Ok(None); 2]);
}

#[test]
fn the_year_selects_the_curve() {
    for (margin, due) in [(0, [9_880, 10_190, 10_780]), (1_500, [9_896, 10_165, 10_678]), (5_000, [9_920, 10_127, 10_520])] {
        let points = curve(&Parameters { year: 2025, margin: Some(margin), ..REFERENCE }).unwrap().points;
        assert_eq!(points.map(|point| (point.quantity.0, point.price.0)), [(due[0], 50_000), (due[1], 18_750), (due[2], 0)]);
    }
    assert_eq!(read(&verdict("margin-5000-in-2022.book")).unwrap().parameters.margin, Some(5_000));
    assert_eq!(read(&verdict("margin-missing-in-2022.book")).unwrap().parameters.margin, None);
    assert_eq!(clear(&verdict("margin-missing-in-2022.book")).unwrap_err().to_string(), MISSING);
}

#[test]
fn a_delivery_year_has_the_february_of_the_next_year() {
    let years = [0, 2026, 2027, 2028, 2099, 2100, 2399, u32::MAX];
    assert_eq!(years.map(days), [365, 365, 366, 365, 365, 365, 366, 366]);
    let (daily, year) = quote(&book()).map(|quote| (quote.daily.0, quote.year.0)).unwrap();
    assert_eq!(year, daily * u64::from(days(2026)));
}

#[test]
fn parameters_missing_or_out_of_range_have_no_curve() {
    let dollars = |number| Some(DollarsPerMwYear(number));
    for (parameters, refusal) in [
        (Parameters { year: 2021, cost: dollars(0), ..REFERENCE }, Refusal::ParameterOutOfRange(Field::Year)),
        (Parameters { cost: dollars(0), ..REFERENCE }, Refusal::ParameterOutOfRange(Field::Cost)),
        (Parameters { offset: dollars(146_001), ..REFERENCE }, Refusal::ParameterOutOfRange(Field::Offset)),
        (Parameters { outage: Some(5_001), ..REFERENCE }, Refusal::ParameterOutOfRange(Field::Outage)),
        (Parameters { requirement: Some(Tenths(999)), ..REFERENCE }, Refusal::ParameterOutOfRange(Field::Requirement)),
        (Parameters { year: 1999, cost: None, outage: None, ..REFERENCE }, Refusal::MissingParameter(Field::Cost)),
        (Parameters { requirement: None, ..REFERENCE }, Refusal::MissingParameter(Field::Requirement)),
        (Parameters { year: 2025, ..REFERENCE }, Refusal::MissingParameter(Field::Margin)),
        (Parameters { year: 2025, margin: Some(5_001), ..REFERENCE }, Refusal::ParameterOutOfRange(Field::Margin)),
        (Parameters { margin: Some(0), ..REFERENCE }, Refusal::ParameterOutOfRange(Field::Margin)),
    ] {
        assert_eq!((curve(&parameters), price_at(&parameters, Tenths(0))), (Err(refusal), Err(refusal)));
    }
}

#[test]
fn nothing_cleared_is_no_price() {
    let nothing = clear(&verdict("no-offers-length-512.book")).unwrap();
    assert_eq!((nothing.total, nothing.price, nothing.rows.len()), (Tenths(0), None, 0));
    assert_eq!(quote(&verdict("no-offers-length-512.book")).unwrap().make_whole_of(Tenths(0), Tenths(50)), Mills(0));
}

#[test]
fn words_and_versions() {
    assert!(report(&book()).starts_with("cleared 10000\nprice 37500\n11 9900 9900 0\n"));
    assert_eq!(report(&book()[1..]), "refused 1 0\n");
    assert_eq!((words(6).as_deref(), words(0), words(u32::MAX)), (Some("an offer has no price; the row"), None, None));
    assert_eq!(format!("{}.{}.{}", version().0, version().1, version().2), env!("CARGO_PKG_VERSION"));
}

/// Each pair of tests/comparisons is answered as the line beside it says.
#[test]
fn compares_the_pairs_that_ship() {
    let folder = Path::new(env!("CARGO_MANIFEST_DIR")).join("../../tests/comparisons");
    let texts = fs::read_dir(folder).unwrap().map(|entry| entry.unwrap().path());
    let texts: Vec<_> = texts.filter(|path| path.extension().is_some_and(|extension| extension == "txt")).collect();
    assert!(texts.len() > 30);
    for text in texts {
        let [first, second] = ["first.book", "second.book"].map(|end| fs::read(text.with_extension(end)).unwrap());
        let said = said(compare(&first, &second));
        assert_eq!(said, fs::read_to_string(&text).unwrap().trim_end(), "{text:?}");
        if said.starts_with("applies") {
            let (one, two) = (clear(&first).unwrap(), clear(&second).unwrap());
            assert_eq!((one.price, one.total, one.daily, one.year), (two.price, two.total, two.daily, two.year));
        }
    }
}

fn said(comparison: Comparison) -> String {
    let row = |row: Option<usize>| row.map_or("-".to_string(), |row| row.to_string());
    match comparison {
        Comparison::Applies { price, shared } => format!("applies {} {shared}", price.0),
        Comparison::FirstRefused(refusal) => format!("refused 1 {} {}", refusal.number(), refusal.place()),
        Comparison::SecondRefused(refusal) => format!("refused 2 {} {}", refusal.number(), refusal.place()),
        Comparison::NothingClears => "nothing clears".to_string(),
        Comparison::ParametersDiffer(field) => format!("field {}", field as u32),
        Comparison::OffersDiffer { row: one, other } => format!("rows {} {}", row(one), row(other)),
    }
}
