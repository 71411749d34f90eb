//! Cases that sentences of the outline decide beside its reference book.

mod common;

use common::{amounts, cleared, refused, with_block};
use oracle::book::{Offer, Parameters};
use oracle::make::{book, offer, reference};
use oracle::{clear, printed, sound, Outcome};

#[test]
fn spare_tenths_by_remainder_then_stamp_then_resource() {
    // The level has 100 tenths to divide.
    let below = offer(99, 9_900, 10_000, 0);
    let tied = |resource, quantity, stamp| offer(resource, quantity, 37_500, stamp);
    // 50 and 50 of 203, 49 and 153 of 203: the larger remainder wins over the earlier stamp and the lower number.
    assert_eq!(amounts(&[below.clone(), tied(1, 102, 0), tied(2, 101, 9)]), [9_900, 50, 50]);
    // 14 and 200 of 700 each: the two spare tenths go to stamp 3, then to the lowest number of stamp 5.
    let stamps = [(8, 5), (7, 9), (6, 5), (5, 3), (4, 9), (3, 9), (9, 5)];
    let mut offers = vec![below];
    offers.extend(stamps.map(|(resource, stamp)| tied(resource, 100, stamp)));
    assert_eq!(amounts(&offers), [9_900, 14, 14, 15, 15, 14, 14, 14]);
}

#[test]
fn stamps_are_unsigned_and_zero_is_one() {
    let below = offer(9, 9_900, 10_000, 0);
    let tied = |resource, stamp| offer(resource, 100, 37_500, stamp);
    assert_eq!(amounts(&[below.clone(), tied(1, u64::MAX), tied(2, 1 << 63), tied(3, 1)]), [9_900, 33, 33, 34]);
    assert_eq!(amounts(&[below, tied(1, 1), tied(2, 2), tied(3, 0)]), [9_900, 33, 33, 34]);
}

#[test]
fn no_make_whole_on_a_share_of_nothing() {
    // 100 tenths over 150 offers of 1: the first hundred stamps get one each, the others nothing, blocks or not.
    let mut offers = vec![offer(1_000, 9_900, 10_000, 0)];
    offers.extend((1..=150).map(|at| with_block(offer(at, 1, 37_500, u64::from(at)), 1)));
    let rows = cleared(&reference(), &offers).rows;
    assert!(rows[1..].iter().all(|row| row.cleared == row.committed && row.make_whole == 0));
    assert_eq!(rows[1..].iter().filter(|row| row.cleared == 1).count(), 100);
    assert_eq!(rows[100].cleared, 1);
    let uncleared = with_block(offer(2, 500, 37_450, 2), 500);
    let row = cleared(&reference(), &[offer(1, 10_000, 10_000, 1), uncleared]).rows[1].clone();
    assert_eq!((row.cleared, row.committed, row.make_whole), (0, 0, 0));
}

#[test]
fn committed_past_cleared_at_a_real_zero() {
    let clearing = cleared(&reference(), &[with_block(offer(1, 11_000, 0, 1), 10_900)]);
    assert_eq!((clearing.rows[0].committed, clearing.make_whole, clearing.daily), (10_900, 0, 0));
}

#[test]
fn days_of_the_delivery_year() {
    for (year, days) in [(2026, 365), (2027, 366), (2028, 365), (2031, 366), (2095, 366), (2099, 365)] {
        let clearing = cleared(&Parameters { year, ..reference() }, &[offer(1, 9_000, 0, 1)]);
        assert_eq!(clearing.year, days * clearing.daily, "{year}");
    }
}

#[test]
fn first_price_of_zero() {
    let [cost, offset, outage, requirement] = [1, 0, 0, 1_000].map(Some);
    let cheapest = Parameters { year: 2099, cost, offset, outage, requirement, margin: None };
    let clearing = cleared(&cheapest, &[offer(1, 2_000, 0, 1)]);
    assert_eq!((clearing.total, clearing.price), (1_045, Some(0)));
    assert_eq!(cleared(&cheapest, &[offer(1, 2_000, 1, 1)]).price, None);
}

#[test]
fn printed_refusals() {
    assert_eq!(printed(&[]), "refused 1 0\n");
    assert_eq!(printed(&vec![0; 1 << 20]), "refused 1 0\n");
    assert_eq!(printed(&[0; 512]), "refused 3 0\n", "the sums of a block of zeros are right");
    assert_eq!(printed(&[1; 512]), "refused 2 0\n");
}

#[test]
fn the_extreme_book() {
    let [cost, offset, outage, requirement] = [1_000_000, 0, 5_000, 2_000_000].map(Some);
    let most = Parameters { year: 2099, cost, offset, outage, requirement, margin: None };
    let offers: Vec<Offer> = (1..=600).map(|at| with_block(offer(at, 200_000, 958_904, 1), 200_000)).collect();
    let clearing = cleared(&most, &offers);
    assert_eq!((clearing.total, clearing.price), (1_980_000, Some(958_904)));
    assert!(clearing.rows.iter().all(|row| (row.cleared, row.committed) == (3_300, 200_000)));
    assert_eq!(clearing.make_whole, 958_904 * 196_700 * 600);
    assert_eq!(clearing.daily, 115_068_480_000_000);
    assert_eq!(clearing.year, 41_999_995_200_000_000);
    let dearer: Vec<Offer> = offers.iter().map(|offer| Offer { price: Some(958_905), ..offer.clone() }).collect();
    assert_eq!(cleared(&most, &dearer).price, None);
}

#[test]
fn short_buffers_come_last() {
    let offers: Vec<Offer> = (1..=3).map(|at| offer(at, 10, at, 1)).collect();
    let call = |offers: &[Offer], cleared, committed| clear(&book(&reference(), offers), cleared, committed);
    let nine = |place| Outcome::Refused { number: 9, place };
    assert_eq!((call(&offers, 2, 2), call(&offers, 3, 2), call(&offers, 2, 9)), (nine(1), nine(2), nine(1)));
    assert_eq!(call(&offers, 3, 3), call(&offers, 600, 4));
    assert!(matches!(call(&[], 0, 0), Outcome::Cleared(_)));
    let unpriced = [offers[0].clone(), Offer { price: None, ..offers[1].clone() }];
    assert_eq!(call(&unpriced, 0, 0), Outcome::Refused { number: 6, place: 1 });
}

#[test]
fn missing_values_are_no_fault_of_soundness() {
    let none = Parameters { year: 2026, cost: None, offset: Some(1_000_000), outage: None, requirement: None, margin: None };
    let unpriced = [Offer { price: None, ..offer(1, 10, 0, 1) }, Offer { price: None, ..offer(2, 10, 0, 1) }];
    assert_eq!(sound(&book(&none, &unpriced)), None);
    assert_eq!(sound(&book(&none, &[unpriced[0].clone(), unpriced[0].clone()])), Some((8, 1)));
    assert_eq!(refused(&none, &unpriced), (4, 2));
}
