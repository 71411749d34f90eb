//! Between editions: up and down give the same bytes, and what is refused.

use oracle::book::{read, Book, Offer, LONGEST};
use oracle::make::{bytes, offer, reference};
use oracle::random::call;
use oracle::{convert, printed, sound};

fn book(edition: u32, offers: &[Offer]) -> Vec<u8> {
    bytes(&Book { edition, parameters: reference(), offers: offers.to_vec() })
}

fn rows(number: u32) -> Vec<Offer> {
    (1..=number).map(|at| offer(at, 10, at, 1)).collect()
}

#[test]
fn up_and_down() {
    for number in [0, 1, 15, 16, 600] {
        let (first, second) = (book(1, &rows(number)), book(2, &rows(number)));
        assert_eq!(convert(&first, LONGEST), Ok(second.clone()));
        assert_eq!(convert(&second, LONGEST), Ok(first));
    }
}

#[test]
fn a_step_past_1_does_not_go_down() {
    let mut offers = rows(20);
    (offers[7].step, offers[7].resource) = (2, offers[6].resource);
    assert_eq!(convert(&book(2, &offers), 0), Err((11, 7)), "11 before 20");
    (offers[4].step, offers[4].resource) = (2, offers[3].resource);
    assert_eq!(convert(&book(2, &offers), LONGEST), Err((11, 4)), "the first such row");
    offers[15].quantity = 0;
    assert_eq!(convert(&book(2, &offers), LONGEST), Err((7, 15)), "a book's own before 11");
    offers[6].step = 3;
    assert_eq!(convert(&book(2, &offers), LONGEST), Err((10, 6)));
}

#[test]
fn missing_values_stay_missing_and_room_comes_last() {
    let unpriced: Vec<Offer> = rows(3).into_iter().map(|offer| Offer { price: None, ..offer }).collect();
    let first = book(1, &unpriced);
    assert_eq!(convert(&first, 1_024), Ok(book(2, &unpriced)));
    assert_eq!(convert(&first, 1_023), Err((20, 0)));
    assert_eq!(convert(&first[1..], 0), Err((1, 0)));
}

/// Of random books each is refused as soundness is, or has its own values in the other edition and clears as it did; and back
/// again it has its own bytes.
#[test]
fn there_and_back() {
    let mut seen = [0; 4];
    for seed in 0..5_000 {
        let bytes = call(seed).book;
        match (convert(&bytes, LONGEST), sound(&bytes)) {
            (Err(fault), Some(due)) => {
                assert_eq!(fault, due, "seed {seed}");
                seen[0] += 1;
            }
            (Err((11, row)), None) => {
                let steps: Vec<u32> = read(&bytes).unwrap().offers.iter().map(|offer| offer.step).collect();
                assert!(steps[row as usize] > 1 && steps[..row as usize].iter().all(|&step| step == 1));
                seen[1] += 1;
            }
            (Ok(other), None) => {
                let (one, two) = (read(&bytes).unwrap(), read(&other).unwrap());
                assert_eq!((&one.parameters, &one.offers, one.edition), (&two.parameters, &two.offers, 3 - two.edition));
                assert_eq!((printed(&other), sound(&other)), (printed(&bytes), None), "seed {seed}");
                assert_eq!(convert(&other, LONGEST), Ok(bytes), "seed {seed}");
                seen[1 + one.edition as usize] += 1;
            }
            (found, due) => panic!("seed {seed}: {found:?}, {due:?}"),
        }
    }
    assert!(seen.iter().all(|&times| times > 100), "not sound, by 11, up, down: {seen:?}");
}
