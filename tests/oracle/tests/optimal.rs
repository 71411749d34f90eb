//! Demands 2 and 3 by exhaustive search: tiny auctions on arbitrary falling curves, every choice of amounts tried.

use oracle::clearing::{amounts, price, total, Priced};
use oracle::random::Rng;

/// A curve as the list of its prices at 0, 1, up to its last quantity.
type Prices = [u32];

fn offer(price: u32, quantity: u32, resource: u32) -> Priced {
    Priced { price, quantity, stamp: 1, resource, step: 1 }
}

/// The curve prices at 1, 2, up to the total, summed, minus each offer's price times its amount.
fn surplus(curve: &Prices, offers: &[Priced], amounts: &[u32]) -> i64 {
    let bought = amounts.iter().sum::<u32>() as usize;
    let worth: i64 = curve[1..=bought].iter().map(|&price| i64::from(price)).sum();
    let cost: i64 = offers.iter().zip(amounts).map(|(offer, &amount)| i64::from(offer.price) * i64::from(amount)).sum();
    worth - cost
}

/// The next choice of amounts, each between nothing and its quantity; false after the last.
fn next(choice: &mut [u32], offers: &[Priced]) -> bool {
    for (amount, offer) in choice.iter_mut().zip(offers) {
        if *amount < offer.quantity {
            *amount += 1;
            return true;
        }
        *amount = 0;
    }
    false
}

/// The best surplus of any choice, and the largest total among the choices that reach it.
fn best(curve: &Prices, offers: &[Priced]) -> (i64, u32) {
    let mut choice = vec![0; offers.len()];
    let mut best = (0, 0);
    loop {
        let bought = choice.iter().sum::<u32>();
        if (bought as usize) < curve.len() {
            best = best.max((surplus(curve, offers, &choice), bought));
        }
        if !next(&mut choice, offers) {
            return best;
        }
    }
}

/// What is offered at a price or below.
fn supply(offers: &[Priced], price: u32) -> u32 {
    offers.iter().filter(|offer| offer.price <= price).map(|offer| offer.quantity).sum()
}

/// The outline's sentence for X, with nothing clever about it.
fn largest(curve: &Prices, offers: &[Priced]) -> u32 {
    (0..curve.len()).rev().find(|&k| supply(offers, curve[k]) as usize >= k).unwrap() as u32
}

/// Demand 2: an offer under the price clears in full, one over it nothing; with no price nothing clears.
fn price_separates(price: Option<u32>, offers: &[Priced], cleared: &[u32]) -> bool {
    offers.iter().zip(cleared).all(|(offer, &amount)| match price {
        Some(price) if offer.price < price => amount == offer.quantity,
        Some(price) if offer.price > price => amount == 0,
        Some(_) => amount <= offer.quantity,
        None => amount == 0,
    })
}

/// Demand 3: the part of an offer within its level is its proportional part rounded down or up.
fn proportional(offers: &[Priced], cleared: &[u32]) -> bool {
    offers.iter().zip(cleared).all(|(offer, &amount)| {
        let tied = || offers.iter().zip(cleared).filter(|(other, _)| other.price == offer.price);
        let sum: u32 = tied().map(|(other, _)| other.quantity).sum();
        let sold: u32 = tied().map(|(_, &part)| part).sum();
        let product = offer.quantity * sold;
        product / sum <= amount && amount <= product.div_ceil(sum)
    })
}

fn check(curve: &Prices, offers: &[Priced]) {
    let price_at = |k: u32| curve[k as usize];
    let total = total(price_at, curve.len() as u32 - 1, offers);
    let price = price(price_at, total, offers);
    let cleared = amounts(total, offers);
    let shown = || format!("curve {curve:?}, offers {offers:?}, total {total}, price {price:?}, cleared {cleared:?}");
    assert_eq!(total, largest(curve, offers), "{}", shown());
    assert_eq!(total, cleared.iter().sum::<u32>(), "{}", shown());
    assert_eq!(best(curve, offers), (surplus(curve, offers, &cleared), total), "{}", shown());
    assert_eq!(price.is_none(), total == 0, "{}", shown());
    assert!(price_separates(price, offers, &cleared), "{}", shown());
    assert!(proportional(offers, &cleared), "{}", shown());
}

/// Every falling list of so many prices under `above`.
fn falling(length: usize, above: u32) -> Vec<Vec<u32>> {
    if length == 0 {
        return vec![vec![]];
    }
    let longer =
        |list: Vec<u32>| (0..list.last().map_or(above, |last| last + 1)).map(move |next| [&list[..], &[next]].concat());
    falling(length - 1, above).into_iter().flat_map(longer).collect()
}

#[test]
fn every_small_auction_of_up_to_three_offers() {
    let kinds: Vec<(u32, u32)> = (0..4).flat_map(|price| (1..=3).map(move |quantity| (price, quantity))).collect();
    for curve in falling(5, 4) {
        check(&curve, &[]);
        for &(p, q) in &kinds {
            check(&curve, &[offer(p, q, 1)]);
            for &(p2, q2) in &kinds {
                check(&curve, &[offer(p, q, 1), offer(p2, q2, 2)]);
                for &(p3, q3) in &kinds {
                    check(&curve, &[offer(p, q, 1), offer(p2, q2, 2), offer(p3, q3, 3)]);
                }
            }
        }
    }
}

#[test]
fn random_auctions_of_up_to_four_offers() {
    let mut rng = Rng::new(1);
    for _ in 0..20_000 {
        let dearest = rng.between(0, 12) as u32;
        let mut curve: Vec<u32> = (0..=rng.between(0, 25)).map(|_| rng.between(0, dearest.into()) as u32).collect();
        curve.sort_by(|a, b| b.cmp(a));
        let offers: Vec<Priced> = (0..rng.between(0, 4))
            .map(|at| offer(rng.between(0, dearest as u64 + 1) as u32, rng.between(1, 6) as u32, at as u32 + 1))
            .collect();
        check(&curve, &offers);
    }
}
