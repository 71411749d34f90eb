//! Delivery years 2022 to 2025, whose curve goes by the reserve margin.

use oracle::book::{Offer, Parameters};
use oracle::make::{book, offer, reference};
use oracle::{clear, curve_by_margin, sound, Clearing, Outcome, Point};

/// The reference parameters in another year, with a margin or none.
fn in_year(year: u32, margin: Option<u32>) -> Parameters {
    Parameters { year, margin, ..reference() }
}

fn cleared(parameters: &Parameters, one: Offer) -> Clearing {
    match clear(&book(parameters, &[one]), 1, 1) {
        Outcome::Cleared(clearing) => clearing,
        refused => panic!("{refused:?}"),
    }
}

fn refused(parameters: &Parameters) -> (u32, u32) {
    match clear(&book(parameters, &[]), 0, 0) {
        Outcome::Refused { number, place } => (number, place),
        clearing => panic!("{clearing:?}"),
    }
}

fn quantities(margin: u32, requirement: u32) -> [u32; 3] {
    curve_by_margin(146_000, 73_000, 2_000, requirement, margin).map(|point| point.quantity)
}

#[test]
fn points_by_the_margin() {
    assert_eq!(quantities(0, 10_000), [9_880, 10_190, 10_780]);
    assert_eq!(quantities(1_500, 10_000), [9_896, 10_165, 10_678]);
    assert_eq!(quantities(5_000, 10_000), [9_920, 10_127, 10_520]);
    // 1,125 tenths come to 1,111.5, 1,146.375 and 1,212.75: a half goes up.
    assert_eq!(quantities(0, 1_125), [1_112, 1_146, 1_213]);
}

#[test]
fn one_and_a_half_times_the_net_cost() {
    let prices = |offset| curve_by_margin(146_000, offset, 2_000, 10_000, 1_500).map(|point| point.price);
    assert_eq!(prices(0), [75_000, 37_500, 0]);
    assert_eq!(prices(73_000), [50_000, 18_750, 0], "the gross cost is the floor");
    assert_eq!(prices(48_660), [50_003, 25_002, 0], "just under a third of C");
}

#[test]
fn the_year_selects_the_curve() {
    for year in 2022..=2025 {
        let points = in_year(year, Some(1_500)).curve();
        assert_eq!(points[2], Point { quantity: 10_678, price: 0 }, "{year}");
    }
    assert_eq!(in_year(2026, None).curve()[2].quantity, 10_450);
    let clearing = cleared(&in_year(2025, Some(1_500)), offer(1, 11_000, 0, 1));
    assert_eq!((clearing.total, clearing.price), (10_678, Some(0)));
    assert_eq!(cleared(&in_year(2023, Some(0)), offer(1, 9_000, 0, 1)).year, 366 * 9_000 * 50_000);
}

#[test]
fn refusals_at_field_6() {
    for year in 2022..=2025 {
        assert_eq!(refused(&in_year(year, None)), (4, 6), "{year}");
        assert_eq!(refused(&in_year(year, Some(5_001))), (5, 6), "{year}");
        assert_eq!(sound(&book(&in_year(year, None), &[])), None, "{year}");
    }
    for year in [2026, 2099] {
        assert_eq!(refused(&in_year(year, Some(0))), (5, 6), "{year}");
        assert_eq!(sound(&book(&in_year(year, Some(0)), &[])), Some((5, 6)), "{year}");
    }
}

#[test]
fn refusals_in_their_order() {
    assert_eq!(refused(&in_year(2021, None)), (5, 1));
    assert_eq!(refused(&in_year(2021, Some(1_500))), (5, 1));
    assert_eq!(refused(&Parameters { cost: None, ..in_year(1999, None) }), (4, 2));
    assert_eq!(refused(&Parameters { requirement: None, ..in_year(2024, None) }), (4, 5));
    assert_eq!(refused(&Parameters { requirement: Some(1), ..in_year(2024, None) }), (4, 6));
    assert_eq!(refused(&Parameters { requirement: Some(1), ..in_year(2024, Some(9_999)) }), (5, 5));
}
