//! Two books compared up to the first's price.

use crate::auction::Auction;
use crate::book::{Book, Offer};
use crate::manner::Manner;
use crate::Fault;

/// What a comparison of two books says; rows are none where a book has no offer at or below the price more.
#[derive(Clone, Copy, Debug, PartialEq, Eq)]
pub enum Comparison {
    Applies { price: u32, shared: usize },
    Refused { book: u32, number: u32, place: u32 },
    NothingClears,
    ParametersDiffer(u32),
    OffersDiffer { row: Option<usize>, other: Option<usize> },
}

pub fn compare<M: Manner>(first: &[u8], second: &[u8]) -> Comparison {
    let refused = |book| move |(number, place)| Comparison::Refused { book, number, place };
    match (accepted::<M>(first).map_err(refused(1)), accepted::<M>(second).map_err(refused(2))) {
        (Err(refused), _) | (_, Err(refused)) => refused,
        (Ok(one), Ok(two)) => accepted_books(&one, &two),
    }
}

fn accepted<M: Manner>(bytes: &[u8]) -> Result<Book, Fault> {
    let book = Book::read(bytes)?;
    book.parameters.curve()?;
    book.check_offers::<M>()?;
    Ok(book)
}

fn accepted_books(one: &Book, two: &Book) -> Comparison {
    let Ok(curve) = one.parameters.curve() else { unreachable!("an accepted book has a curve") };
    let Some(price) = Auction::new(&one.offers, &curve).price else { return Comparison::NothingClears };
    if let Some(field) = one.parameters.differ(&two.parameters) {
        return Comparison::ParametersDiffer(field);
    }
    let low = |book: &Book| {
        let low: Vec<(usize, Offer)> =
            book.offers.iter().copied().enumerate().filter(|(_, offer)| offer.price <= price).collect();
        low
    };
    let (one, two) = (low(one), low(two));
    let agree = one.iter().zip(&two).take_while(|(one, two)| one.1 == two.1).count();
    if agree == one.len() && agree == two.len() {
        return Comparison::Applies { price, shared: agree };
    }
    Comparison::OffersDiffer { row: one.get(agree).map(|one| one.0), other: two.get(agree).map(|two| two.0) }
}
