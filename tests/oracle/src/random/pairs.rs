//! A second book beside a first: the same but for its losers, or nearly so.

use super::{steps, Rng};
use crate::book::{self, Book, Offer, Parameters, MOST_OFFERS};
use crate::{clear, make, Outcome};

/// A book beside another. In most pairs offers above the first's price come, go, move or change, and in some the edition; in half
/// of them something else differs too, or the books have nothing to do with each other.
pub fn beside(rng: &mut Rng, first: &[u8]) -> Vec<u8> {
    let Ok(read) = book::read(first) else { return super::book(rng).1 };
    let price = match clear(first, MOST_OFFERS, MOST_OFFERS) {
        Outcome::Cleared(clearing) => clearing.price,
        Outcome::Refused { .. } => None,
    };
    let price = price.unwrap_or_else(|| rng.between32(0, 1_000_000));
    let Book { mut edition, mut parameters, mut offers } = read;
    for _ in 0..rng.between(0, 6) {
        change_losers(rng, price, edition, &mut offers);
    }
    if rng.percent(25) && offers.iter().all(|offer| offer.step == 1) {
        edition = 3 - edition;
    }
    match rng.draw() % 20 {
        0..=9 => {}
        10 => return super::book(rng).1,
        11 | 12 => change_parameters(rng, &mut parameters),
        _ => change_shared(rng, price, &mut offers),
    }
    make::bytes(&Book { edition, parameters, offers })
}

fn rows(offers: &[Offer], holds: impl Fn(u32) -> bool) -> Vec<usize> {
    (0..offers.len()).filter(|&row| offers[row].price.is_some_and(&holds)).collect()
}

/// One offer above the price comes, goes, moves or changes: a resource of one step, or the last step of one.
fn change_losers(rng: &mut Rng, price: u32, edition: u32, offers: &mut Vec<Offer>) {
    let mut losers = rows(offers, |asked| asked > price);
    losers.retain(|&row| steps::is_last(offers, row));
    match rng.draw() % 5 {
        0 | 1 if offers.len() < MOST_OFFERS && price < 1_000_000 => {
            let one = offer(rng, offers, (price + 1, 1_000_000));
            offers.insert(steps::between(rng, offers), one);
        }
        2 if !losers.is_empty() => {
            let one = offers.remove(rng.pick(&losers));
            if one.step == 1 && rng.percent(60) {
                offers.insert(steps::between(rng, offers), one);
            }
        }
        3 if edition == 2 && offers.len() < MOST_OFFERS && price < 1_000_000 => add_step(rng, price, offers),
        _ if !losers.is_empty() => {
            let row = rng.pick(&losers);
            let Offer { resource, step, price: asked, .. } = offers[row];
            let least = asked.map_or(0, |asked| asked.min(1_000_000));
            let one = Offer { resource, step, ..offer(rng, offers, (least, 1_000_000)) };
            offers[row] = Offer { block: one.block.filter(|_| step == 1), ..one };
        }
        _ => {}
    }
}

/// One step more of a resource, above the price.
fn add_step(rng: &mut Rng, price: u32, offers: &mut Vec<Offer>) {
    let last: Vec<usize> = (0..offers.len()).filter(|&row| offers[row].step < 10 && steps::is_last(offers, row)).collect();
    if last.is_empty() {
        return;
    }
    let row = rng.pick(&last);
    let Offer { resource, step, price: asked, .. } = offers[row];
    let least = asked.unwrap_or(0).max(price + 1).min(1_000_000);
    let one = Offer { resource, step: step + 1, block: None, ..offer(rng, offers, (least, 1_000_000)) };
    offers.insert(row + 1, one);
}

/// An offer with a price in a range, and a resource number that no other has.
fn offer(rng: &mut Rng, offers: &[Offer], (least, most): (u32, u32)) -> Offer {
    let taken = |resource: u32| resource == 0 || offers.iter().any(|offer| offer.resource == resource);
    let start = rng.draw() as u32;
    let resource = (0..).map(|on| start.wrapping_add(on)).find(|&resource| !taken(resource)).expect("a free number");
    let near = (least + 1).min(most);
    let asked = rng.between32(least, most);
    let quantity = rng.between32(1, 20_000);
    let block = rng.percent(30).then(|| rng.between32(1, quantity));
    Offer {
        resource,
        seller: rng.between32(1, 99),
        price: Some(rng.pick(&[least, near, asked])),
        quantity,
        block,
        stamp: rng.draw(),
        step: 1,
    }
}

/// Something differs among the offers at or below the price: a value of one, their order, one more or one less.
fn change_shared(rng: &mut Rng, price: u32, offers: &mut Vec<Offer>) {
    let shared = rows(offers, |asked| asked <= price);
    let at = rows(offers, |asked| asked == price);
    if shared.is_empty() {
        return;
    }
    let among = if at.is_empty() || rng.percent(50) { &shared } else { &at };
    let row = rng.pick(among);
    match rng.draw() % 11 {
        10 => offers[row].step = offers[row].step % 10 + 1,
        0 => offers[row].seller ^= 1 << 20,
        1 => offers[row].stamp ^= 1,
        2 => offers[row].quantity = offers[row].quantity % 200_000 + 1,
        3 => offers[row].block = if offers[row].block.is_some() { None } else { Some(1) },
        4 => offers[row].price = offers[row].price.map(|asked| asked.saturating_sub(1)),
        5 => offers[row].price = Some((price + 1).min(1_000_000)),
        6 => offers[row].price = None,
        7 => drop(offers.remove(row)),
        8 => offers.swap(row, rng.pick(&shared)),
        _ if offers.len() < MOST_OFFERS => {
            let (low, row) = (rng.pick(&[0, price]), rng.index(offers.len() + 1));
            let one = offer(rng, offers, (low, price));
            offers.insert(row, one);
        }
        _ => {}
    }
}

fn change_parameters(rng: &mut Rng, p: &mut Parameters) {
    let near = |value: Option<u32>| value.map(|value| if value > 0 { value - 1 } else { value + 1 });
    match rng.draw() % 5 {
        0 => p.year = if p.year < 2_099 { p.year + 1 } else { 2_026 },
        1 => p.cost = p.cost.map(|cost| cost + 1),
        2 => p.offset = near(p.offset),
        3 => p.outage = near(p.outage),
        _ => p.requirement = p.requirement.map(|requirement| requirement + 1),
    }
}
