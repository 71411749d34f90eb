//! Edition 2: ten price steps of a resource, by the sentences of the request.

use oracle::book::{read, Book, Fault, Offer, Parameters, LONGEST};
use oracle::limits::{step_breach, Breach};
use oracle::make::{bytes, offer, reference, seal_all};
use oracle::random::{call, valid, Rng};
use oracle::{clear, comparison, printed, sound, write, Outcome};

fn step(resource: u32, step: u32, quantity: u32, price: u32) -> Offer {
    Offer { step, ..offer(resource, quantity, price, 1) }
}

fn second(offers: &[Offer]) -> Book {
    Book { edition: 2, parameters: reference(), offers: offers.to_vec() }
}

/// The refusal of a book of edition 2 when clearing, and when soundness is asked.
fn faults(offers: &[Offer]) -> (Option<Fault>, Option<Fault>) {
    let book = bytes(&second(offers));
    let fault = match clear(&book, 600, 600) {
        Outcome::Refused { number, place } => Some((number, place)),
        Outcome::Cleared(_) => None,
    };
    (fault, sound(&book))
}

fn fault(offers: &[Offer]) -> Option<Fault> {
    let (clearing, soundness) = faults(offers);
    assert_eq!(clearing, soundness);
    clearing
}

fn amounts(offers: &[Offer]) -> Vec<u32> {
    match clear(&bytes(&second(offers)), 600, 600) {
        Outcome::Cleared(clearing) => clearing.rows.iter().map(|row| row.cleared).collect(),
        refused => panic!("{refused:?}"),
    }
}

/// The steps 1 to so many of a resource, a cent dearer each.
fn run(resource: u32, steps: u32) -> Vec<Offer> {
    (1..=steps).map(|at| step(resource, at, 10, at)).collect()
}

#[test]
fn ten_steps_and_no_more() {
    assert_eq!(fault(&run(5, 10)), None);
    assert_eq!(fault(&run(5, 11)), Some((7, 10)));
    assert_eq!(fault(&[step(5, 0, 10, 1)]), Some((7, 0)));
    assert_eq!(fault(&[step(5, 1, 10, 1), step(5, 255, 10, 1)]), Some((7, 1)));
    assert_eq!(fault(&[run(5, 10), run(6, 10), run(4, 1)].concat()), None);
}

#[test]
fn neighbouring_rows_counted_up_from_1() {
    assert_eq!(fault(&[step(5, 2, 10, 1)]), Some((10, 0)), "no row before");
    assert_eq!(fault(&[step(5, 1, 10, 1), step(5, 3, 10, 1)]), Some((10, 1)), "a step left out");
    assert_eq!(fault(&[step(5, 1, 10, 1), step(5, 2, 10, 1), step(5, 2, 10, 1)]), Some((10, 2)), "a step twice");
    assert_eq!(fault(&[step(5, 1, 10, 1), step(6, 2, 10, 1)]), Some((10, 1)), "of another resource");
    assert_eq!(fault(&[step(5, 1, 10, 1), step(6, 1, 10, 1), step(5, 2, 10, 1)]), Some((10, 2)), "not neighbouring");
}

#[test]
fn prices_never_fall_where_both_are_given() {
    assert_eq!(fault(&[step(5, 1, 10, 7), step(5, 2, 10, 7)]), None, "equal prices");
    assert_eq!(fault(&[step(5, 1, 10, 7), step(5, 2, 10, 6)]), Some((10, 1)));
    let missing = Offer { price: None, ..step(5, 2, 10, 0) };
    assert_eq!(faults(&[step(5, 1, 10, 5), missing, step(5, 3, 10, 3)]), (Some((6, 1)), None), "5, missing, 3");
}

#[test]
fn a_minimum_block_on_step_1_alone() {
    let block = |offer: Offer| Offer { block: Some(10), ..offer };
    assert_eq!(fault(&[block(step(5, 1, 10, 7)), step(5, 2, 10, 7)]), None);
    assert_eq!(fault(&[step(5, 1, 10, 7), block(step(5, 2, 10, 7))]), Some((10, 1)));
}

#[test]
fn a_repeat_is_sought_on_step_1_against_all_rows_before() {
    let again = [run(5, 3), run(6, 1), run(5, 2)].concat();
    assert_eq!(fault(&again), Some((8, 4)));
    // The row before a step 1 is a step 2 of the same resource.
    assert_eq!(fault(&[run(5, 2), run(5, 1)].concat()), Some((8, 2)));
}

#[test]
fn refusals_of_a_row_in_their_order() {
    let alone = step(5, 2, 10, 1);
    assert_eq!(faults(&[Offer { price: None, ..alone.clone() }]), (Some((6, 0)), Some((10, 0))), "6 before 10");
    assert_eq!(fault(&[Offer { quantity: 0, ..alone.clone() }]), Some((7, 0)), "7 before 10");
    assert_eq!(fault(&[alone, step(6, 0, 10, 1)]), Some((10, 0)), "rows from 0");
    let repeat = [step(5, 1, 10, 1), step(5, 1, 10, 1), step(5, 3, 10, 1)];
    assert_eq!(fault(&repeat), Some((8, 1)));
}

#[test]
fn a_tie_falls_at_last_to_the_lower_resource_then_the_lower_step() {
    // 100 tenths for seven offers of 100 at one price: 14 each, and two spare tenths.
    let below = step(99, 1, 9_900, 10_000);
    let tied = |resource, at| step(resource, at, 100, 37_500);
    let rows = [below, tied(7, 1), tied(7, 2), tied(7, 3), tied(5, 1), tied(6, 1), tied(6, 2), tied(8, 1)];
    assert_eq!(amounts(&rows), [9_900, 14, 14, 14, 15, 15, 14, 14]);
    let low = [rows[0].clone(), tied(5, 1), tied(5, 2), tied(5, 3), tied(6, 1), tied(7, 1), tied(8, 1), tied(9, 1)];
    assert_eq!(amounts(&low), [9_900, 15, 15, 14, 14, 14, 14, 14]);
    let mut early = low.clone();
    early[3].stamp = 0;
    assert_eq!(amounts(&early), [9_900, 15, 14, 15, 14, 14, 14, 14], "an earlier stamp before a lower step");
}

#[test]
fn sellers_and_stamps_may_differ_between_steps() {
    let other = Offer { seller: 8, stamp: 0, ..step(5, 2, 10, 1) };
    assert_eq!(fault(&[step(5, 1, 10, 1), other]), None);
}

#[test]
fn edition_1_has_no_steps() {
    let first = Book { edition: 1, ..second(&[step(5, 1, 9_000, 0), step(6, 1, 10, 5)]) };
    assert_eq!(read(&bytes(&first)), Ok(first.clone()));
    let mut book = bytes(&first);
    book[512 + 28 + 29] = 1;
    seal_all(&mut book);
    assert_eq!(sound(&book), Some((3, 1)));
    for unused in [0, 29] {
        let mut book = bytes(&Book { edition: 2, ..first.clone() });
        book[512 + 28 + 32 * 2 + unused] = 1;
        seal_all(&mut book);
        assert_eq!(sound(&book), Some((3, 1)), "an unused place of edition 2 is all zero");
    }
}

#[test]
fn editions_clear_the_same() {
    for seed in 0..2_000 {
        let book = call(seed).book;
        let Ok(read) = read(&book) else { continue };
        if read.offers.iter().all(|offer| offer.step == 1) {
            let other = bytes(&Book { edition: 3 - read.edition, ..read });
            assert_eq!(printed(&other), printed(&book), "seed {seed}");
            assert_eq!(sound(&other), sound(&book), "seed {seed}");
        }
    }
}

#[test]
fn in_a_valid_book_a_dearer_step_clears_after_a_cheaper_one() {
    let mut rng = Rng::new(6);
    let mut steps = 0;
    for _ in 0..500 {
        let book = valid::values(&mut rng);
        let Outcome::Cleared(clearing) = clear(&bytes(&book), 600, 600) else { panic!("a valid book clears") };
        for row in (1..book.offers.len()).filter(|&row| book.offers[row].step > 1) {
            let (before, own) = (&book.offers[row - 1], &book.offers[row]);
            assert_eq!((before.resource, before.step), (own.resource, own.step - 1));
            let whole = clearing.rows[row - 1].cleared == before.quantity;
            assert!(whole || before.price == own.price || clearing.rows[row].cleared == 0);
            steps += 1;
        }
    }
    assert!(steps > 1_000, "{steps}");
}

#[test]
fn writing_refuses_an_edition_that_is_neither_before_all_else() {
    let many = vec![step(5, 1, 0, 1); 601];
    for edition in [0, 3, 257, 65_537, u32::MAX] {
        let wrong = Book { edition, parameters: Parameters { year: 1, ..reference() }, offers: many.clone() };
        assert_eq!(write(&wrong, 0), Err((3, 0)), "{edition}");
    }
    assert_eq!(write(&second(&many), 0), Err((19, 0)));
}

#[test]
fn writing_refuses_a_step_that_the_edition_cannot_hold() {
    for wide in [0, 11, 255, 256, 257, 65_537, u32::MAX] {
        assert_eq!(write(&second(&[step(5, 1, 10, 1), step(5, wide, 10, 1)]), LONGEST), Err((7, 1)), "{wide}");
    }
    let first = Book { edition: 1, ..second(&run(5, 2)) };
    assert_eq!(write(&first, LONGEST), Err((7, 1)));
    assert_eq!(write(&second(&run(5, 2)), LONGEST), Ok(bytes(&second(&run(5, 2)))));
    assert_eq!(write(&second(&run(5, 2)), 1_023), Err((20, 0)));
    assert_eq!(write(&second(&run(5, 2)[1..]), 0), Err((10, 0)), "10 before 20");
}

#[test]
fn losers_of_another_edition_and_dearer_steps() {
    use comparison::{compare, Comparison};
    let rows = [step(5, 1, 9_900, 10_000), step(6, 1, 200, 37_500)];
    let first = bytes(&Book { edition: 1, ..second(&rows) });
    let applies = Comparison::Applies { price: 37_500, shared: 2 };
    assert_eq!(compare(&first, &bytes(&second(&rows))), applies, "the edition is no parameter");
    let dearer = [&rows[..], &[step(6, 2, 10, 37_501)]].concat();
    assert_eq!(compare(&first, &bytes(&second(&dearer))), applies, "a step above the price");
}

#[test]
fn every_breach_occurs() {
    let mut seen = [0; 4];
    for seed in 0..20_000 {
        let book = call(seed).book;
        if let (Some((10, row)), Ok(read)) = (sound(&book), read(&book)) {
            match step_breach(&read.offers, row as usize).expect("a breach") {
                Breach::NotNeighbouring => seen[0] += 1,
                Breach::NotCountedUp => seen[1] += 1,
                Breach::PriceFalls => seen[2] += 1,
                Breach::Block => seen[3] += 1,
            }
        }
    }
    assert!(seen.iter().all(|&times| times >= 20), "{seen:?}");
}
