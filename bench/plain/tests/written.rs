//! The same books as the oracle's, and the same room, from 20,000 random contents; and what is read of them; and 20,000 random books
//! in the other edition.

use oracle::book::{Book, Offer};
use oracle::random::contents::contents;
use oracle::random::{call, Rng};
use plain::{convert, convert_tuned, read, write, write_tuned, Contents, Row};

fn said(book: &Book) -> Contents {
    let row = |offer: &Offer| {
        let &Offer { resource, seller, price, quantity, block, stamp, step } = offer;
        Row { resource, seller, price, quantity, block, stamp, step }
    };
    let p = &book.parameters;
    let values = [p.cost, p.offset, p.outage, p.requirement, p.margin];
    Contents { edition: book.edition, year: p.year, values, rows: book.offers.iter().map(row).collect() }
}

#[test]
fn random_contents() {
    let mut rng = Rng::new(5);
    for turn in 0..20_000 {
        let book = contents(&mut rng);
        let contents = said(&book);
        let length = rng.pick(&[0, 512, 1_024, 20_991, 20_992, 20_992, 20_992, 30_000]);
        let due = oracle::write(&book, length);
        let mut kept = vec![0xA5; length];
        if let Ok(book) = &due {
            kept[..book.len()].copy_from_slice(book);
            assert_eq!(read(book).as_ref(), Ok(&contents), "turn {turn}");
        }
        for write in [write, write_tuned] {
            let mut room = vec![0xA5; length];
            assert_eq!(write(&contents, &mut room), due.as_ref().map(Vec::len).map_err(|&fault| fault), "turn {turn}");
            assert!(room == kept, "turn {turn}");
        }
    }
}

#[test]
fn random_books_in_the_other_edition() {
    let mut rng = Rng::new(7);
    for seed in 0..20_000 {
        let book = call(seed).book;
        let length = rng.pick(&[book.len(), book.len(), book.len() + 9, book.len().saturating_sub(1), 0]);
        let due = oracle::convert(&book, length);
        let mut kept = vec![0xA5; length];
        if let Ok(other) = &due {
            kept[..other.len()].copy_from_slice(other);
        }
        for convert in [convert, convert_tuned] {
            let mut room = vec![0xA5; length];
            assert_eq!(convert(&book, &mut room), due.as_ref().map(Vec::len).map_err(|&fault| fault), "seed {seed}");
            assert!(room == kept, "seed {seed}");
        }
    }
}
