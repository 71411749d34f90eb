//! The books that are measured.

use oracle::book::{Book, Offer, Parameters};
use oracle::make::{book, bytes, offer, reference};

/// The first of a day's time stamps, in milliseconds.
const DAY: u64 = 1_780_000_000_000;

/// A book, and the most that the library's time over plain Rust's may be on it.
pub struct Case {
    pub name: &'static str,
    pub book: Vec<u8>,
    pub target: f64,
}

pub fn cases() -> Vec<Case> {
    let case = |name, book, target| Case { name, book, target };
    vec![
        case("600 offers, distinct prices", written(&distinct()), 0.5),
        case("600 within 20 cents", written(&close()), 0.6),
        case("600 within 20 cents, prices rising", written(&close_rising()), 0.6),
        case("600 all tied", written(&tied()), 0.7),
        case("600 tied, equal quantities", written(&equal()), 0.7),
        case("600 tied, equal, stamps rising", written(&rising()), 0.7),
        case("600 in 60 runs of ten, distinct prices", stepped(&in_runs(distinct())), 0.4),
        case("600 in 60 runs of ten, all tied", stepped(&in_runs(all_alike())), 0.5),
        case("600, distinct prices, a year by the margin", by_margin(&distinct()), 0.5),
        case("600, the last row repeats a resource", written(&last_repeats()), 1.0),
        case("600, resources equal in their low 16 bits", written(&low_halves_equal()), 1.0),
        case("600, resources equal in their high 16 bits", written(&high_halves_equal()), 1.0),
        case("600, resources whose halves add up alike", written(&halves_add_up_alike()), 1.0),
        case("600, resources in steps of 1", written(&in_steps(1)), 1.0),
        case("600, resources in steps of 8,192", written(&in_steps(8_192)), 1.0),
        case("600, resources in steps of 55,803,904", written(&in_steps(55_803_904)), 1.0),
        case("600, resources at random", written(&at_random()), 1.0),
        case("15 offers", written(&distinct()[..15]), 1.0),
        case("no offers", written(&[]), 1.0),
        case("refused by 1", written(&distinct())[1..].to_vec(), 1.0),
        case("refused by 2 at the last block", last_check_wrong(), 1.0),
    ]
}

/// Two books, and the most that the library's time over plain Rust's may be on them.
pub struct Pair {
    pub name: &'static str,
    pub first: Vec<u8>,
    pub second: Vec<u8>,
    pub target: f64,
}

pub fn pairs() -> Vec<Pair> {
    let pair =
        |name, first: &[Offer], second: &[Offer]| Pair { name, first: written(first), second: written(second), target: 1.0 };
    // The price is 31,080, so that the offers above it lose.
    let (low, high): (Vec<Offer>, Vec<Offer>) = distinct().into_iter().partition(|offer| offer.price <= Some(31_080));
    let (moved, mut altered) = ([high, low.clone()].concat(), low);
    altered[517].seller += 1;
    vec![
        pair("600 beside themselves", &distinct(), &distinct()),
        pair("600 beside the same, losers first", &distinct(), &moved),
        pair("600 beside 518, the last altered", &distinct(), &altered),
        pair("15 beside 15", &distinct()[..15], &distinct()[..15]),
    ]
}

fn written(offers: &[Offer]) -> Vec<u8> {
    book(&reference(), offers)
}

/// The same in a delivery year whose curve goes by the reserve margin.
fn by_margin(offers: &[Offer]) -> Vec<u8> {
    book(&Parameters { year: 2024, margin: Some(1_500), ..reference() }, offers)
}

/// The book of edition 2 that has these steps.
pub fn stepped(offers: &[Offer]) -> Vec<u8> {
    bytes(&Book { edition: 2, parameters: reference(), offers: offers.to_vec() })
}

/// Six hundred offers in no order of price, stamp or resource, each with a block. With the reference parameters their sum is
/// 11,700, so that most clear whole, one in part and some not at all.
pub fn distinct() -> Vec<Offer> {
    (0..600u32)
        .map(|at| {
            let price = 60 * (at * 7_919 % 601);
            let stamp = DAY + u64::from(at) * 55_555_577 % 86_400_000;
            Offer { block: Some(9), ..offer((at + 1).wrapping_mul(2_654_435_761), 10 + at % 20, price, stamp) }
        })
        .collect()
}

/// The same offers at 21 prices next to each other; the total stops at the nineteenth.
fn close() -> Vec<Offer> {
    (0..).zip(distinct()).map(|(at, offer): (u32, _)| Offer { price: Some(37_490 + at * 7_919 % 21), ..offer }).collect()
}

/// The same with the prices in the order of the rows, which a sort finds in order already.
fn close_rising() -> Vec<Offer> {
    (0..).zip(close()).map(|(at, offer): (u32, _)| Offer { price: Some(37_490 + at / 29), ..offer }).collect()
}

/// The same offers at one price, at which not all clear: remainders differ, and the spare tenths go by them.
fn tied() -> Vec<Offer> {
    distinct().into_iter().map(|offer| Offer { price: Some(37_500), ..offer }).collect()
}

/// All tied with equal quantities: remainders are equal too, and the spare tenths go by the stamp.
fn equal() -> Vec<Offer> {
    tied().into_iter().map(|offer| Offer { quantity: 20, ..offer }).collect()
}

/// The same with the stamps in the order of the rows, which a sort finds in order already.
fn rising() -> Vec<Offer> {
    (DAY..).zip(equal()).map(|(stamp, offer)| Offer { stamp, ..offer }).collect()
}

/// The same with one stamp: remainders and stamps are equal, and the spare tenths go by the resource and then by the step.
fn all_alike() -> Vec<Offer> {
    equal().into_iter().map(|offer| Offer { stamp: DAY, ..offer }).collect()
}

/// Ten offers at a time as the steps of one resource, by price; only the first keeps its block.
pub fn in_runs(mut offers: Vec<Offer>) -> Vec<Offer> {
    for run in offers.chunks_mut(10) {
        run.sort_by_key(|offer| offer.price);
        let resource = run[0].resource;
        for (offer, step) in run.iter_mut().zip(1..) {
            let block = offer.block.filter(|_| step == 1);
            *offer = Offer { resource, step, block, ..offer.clone() };
        }
    }
    offers
}

pub fn last_repeats() -> Vec<Offer> {
    let mut offers = distinct();
    offers[599].resource = offers[300].resource;
    offers
}

fn numbered(resource: impl Fn(u32) -> u32) -> Vec<Offer> {
    (0..).zip(distinct()).map(|(at, offer)| Offer { resource: resource(at), ..offer }).collect()
}

fn low_halves_equal() -> Vec<Offer> {
    numbered(|at| (at + 1) * 65_536 + 4_321)
}

fn high_halves_equal() -> Vec<Offer> {
    numbered(|at| 4_321 * 65_536 + 7 * at + 1)
}

/// Each number's two halves add up to the same, so that all have one of their two flags in common.
fn halves_add_up_alike() -> Vec<Offer> {
    numbered(|at| (at + 1) * 65_536 + (4_321 - at))
}

/// Numbers in equal steps. Of all steps tried, those of 55,803,904 make the most rows meet two flags that others have set.
fn in_steps(step: u32) -> Vec<Offer> {
    numbered(|at| (at + 1).wrapping_mul(step))
}

/// Numbers in no order, by a generator that repeats none.
fn at_random() -> Vec<Offer> {
    let mut number = 1u32;
    let mut next = || {
        number ^= number << 13;
        number ^= number >> 17;
        number ^= number << 5;
        number
    };
    distinct().into_iter().map(|offer| Offer { resource: next(), ..offer }).collect()
}

fn last_check_wrong() -> Vec<u8> {
    let mut book = written(&distinct());
    let last = book.len() - 1;
    book[last] ^= 1;
    book
}
