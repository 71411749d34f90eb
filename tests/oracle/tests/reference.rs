//! The outline's reference book, case by case.

mod common;

use common::{amounts, cleared, refused, result, with_block};
use oracle::book::{Offer, Parameters};
use oracle::make::{book, offer, reference};
use oracle::{curve, price_at, printed, Point};

fn points(quantities: [u32; 3], prices: [u32; 3]) -> [Point; 3] {
    std::array::from_fn(|at| Point { quantity: quantities[at], price: prices[at] })
}

const QUANTITIES: [u32; 3] = [9_900, 10_150, 10_450];

#[test]
fn curve_of_the_reference_book() {
    let reference = curve(146_000, 73_000, 2_000, 10_000);
    assert_eq!(reference, points(QUANTITIES, [50_000, 18_750, 0]));
    for (k, price) in [(0, 50_000), (9_900, 50_000), (10_000, 37_500), (10_150, 18_750), (10_151, 18_687), (10_450, 0)] {
        assert_eq!(price_at(&reference, k), Some(price));
    }
    assert_eq!(price_at(&reference, 10_451), None);
}

#[test]
fn curves_at_the_ends_of_the_offset() {
    assert_eq!(curve(146_000, 0, 2_000, 10_000), points(QUANTITIES, [87_500, 37_500, 0]));
    assert_eq!(curve(146_000, 146_000, 2_000, 10_000), points(QUANTITIES, [50_000, 0, 0]));
    assert_eq!(refused(&Parameters { offset: Some(146_001), ..reference() }, &[]), (5, 3));
}

#[test]
fn halves_go_up() {
    assert_eq!(curve(146, 0, 2_000, 1_050), points([1_040, 1_066, 1_097], [88, 38, 0]));
    assert_eq!(curve(1, 0, 0, 1_000), points([990, 1_015, 1_045], [0, 0, 0]));
    assert_eq!(curve(1_000_000, 0, 5_000, 2_000_000), points([1_980_000, 2_030_000, 2_090_000], [958_904, 410_959, 0]));
}

#[test]
fn requirement_at_its_least() {
    assert_eq!(refused(&Parameters { requirement: Some(999), ..reference() }, &[]), (5, 5));
    assert_eq!(curve(146_000, 73_000, 2_000, 1_000).map(|point| point.quantity), [990, 1_015, 1_045]);
}

#[test]
fn nothing_clears() {
    assert_eq!(result(&[]), (0, None, vec![]));
    assert_eq!(result(&[offer(1, 100, 50_001, 1)]), (0, None, vec![0]));
    assert_eq!(printed(&book(&reference(), &[])), "cleared 0\nprice -\ndaily 0\nyear 0\n");
    let blocked = [with_block(offer(1, 100, 50_001, 1), 100)];
    assert_eq!(printed(&book(&reference(), &blocked)), "cleared 0\nprice -\n1 0 0 0\ndaily 0\nyear 0\n");
}

#[test]
fn one_offer() {
    assert_eq!(result(&[offer(1, 9_000, 0, 1)]), (9_000, Some(50_000), vec![9_000]));
    assert_eq!(result(&[offer(1, 11_000, 0, 1)]), (10_450, Some(0), vec![10_450]));
    assert_eq!(result(&[offer(1, 100, 50_000, 1)]), (100, Some(50_000), vec![100]));
}

#[test]
fn price_in_a_gap() {
    let first = offer(1, 10_000, 10_000, 1);
    assert_eq!(result(&[first.clone(), offer(2, 500, 40_000, 2)]), (10_000, Some(37_500), vec![10_000, 0]));
    assert_eq!(result(&[first, offer(2, 500, 37_450, 2)]), (10_000, Some(37_450), vec![10_000, 0]));
}

#[test]
fn three_ties() {
    let below = offer(1, 9_900, 10_000, 0);
    let tied = |resource, stamp| offer(resource, 100, 37_500, stamp);
    assert_eq!(result(&[below.clone(), tied(2, 5), tied(3, 4), tied(4, 6)]), (10_000, Some(37_500), vec![9_900, 33, 34, 33]));
    assert_eq!(amounts(&[below, tied(4, 5), tied(3, 5), tied(5, 5)]), [9_900, 33, 34, 33], "by resource");
}

#[test]
fn the_printed_example() {
    let offers = [offer(11, 9_900, 10_000, 1), offer(12, 200, 37_500, 2), with_block(offer(13, 100, 37_500, 3), 50)];
    let expected =
        "cleared 10000\nprice 37500\n11 9900 9900 0\n12 67 67 0\n13 33 50 637500\ndaily 375637500\nyear 137107687500\n";
    assert_eq!(printed(&book(&reference(), &offers)), expected);
}

#[test]
fn six_hundred_offers_pass_and_one_more_does_not() {
    let offers: Vec<Offer> = (1..=601).map(|at| offer(at, 10, at, at.into())).collect();
    assert_eq!(cleared(&reference(), &offers[..600]).total, 6_000);
    assert_eq!(book(&reference(), &offers).len(), 42 * 512);
    assert_eq!(refused(&reference(), &offers), (1, 0));
}
