//! Books written, read and written back, and written in the other edition.

use crate::books::{distinct, in_runs, last_repeats, stepped};
use crate::timing::best;
use crate::{done, line};
use oracle::book::Offer;
use oracle::make::{book, reference};
use ozpinduru::{convert_into, read, write_into, MOST_BYTES};
use std::hint::black_box;

/// What is written, the room for it, and the most that the library's time over plain Rust's may be.
struct Case {
    name: &'static str,
    bytes: Vec<u8>,
    room: usize,
    target: f64,
}

pub fn compare() {
    let case = |name, offers: &[Offer], room, target| Case { name, bytes: book(&reference(), offers), room, target };
    let runs = Case {
        name: "600 rows in 60 runs of ten written",
        bytes: stepped(&in_runs(distinct())),
        room: MOST_BYTES,
        target: 0.7,
    };
    let few = &distinct()[..15];
    let cases = [
        case("600 rows written", &distinct(), MOST_BYTES, 0.7),
        runs,
        case("600 rows, the last repeats a resource", &last_repeats(), MOST_BYTES, 1.0),
        case("600 rows, a byte of room too few", &distinct(), MOST_BYTES - 1, 1.0),
        case("15 rows written", few, MOST_BYTES, 1.0),
        case("no rows written", &[], MOST_BYTES, 1.0),
    ];
    cases.iter().for_each(written);
    back(&case("600 rows read and written back", &distinct(), MOST_BYTES, 0.7));
    back(&case("15 rows read and written back", few, MOST_BYTES, 1.0));
    converted(&case("600 rows converted up", &distinct(), MOST_BYTES, 0.7));
    converted(&Case { name: "600 rows converted down", bytes: stepped(&distinct()), room: MOST_BYTES, target: 0.7 });
    converted(&case("15 rows converted up", few, MOST_BYTES, 1.0));
}

/// A line of the table, once all three have written the same.
fn written(case: &Case) {
    let ours = read(&case.bytes).expect("a book");
    let theirs = plain::read(&case.bytes).expect("a book");
    let [a, b, c] = &mut [(); 3].map(|()| vec![7; case.room]);
    let due =
        write_into(ours.edition, &ours.parameters, &ours.offers, a).map_err(|refusal| (refusal.number(), refusal.place()));
    assert_eq!([plain::write(&theirs, b), plain::write_tuned(&theirs, c)], [due, due], "{}", case.name);
    assert!(a == b && b == c, "{}", case.name);
    let times = best([
        &mut || done(write_into(black_box(ours.edition), black_box(&ours.parameters), black_box(&ours.offers), a)),
        &mut || done(plain::write(black_box(&theirs), b)),
        &mut || done(plain::write_tuned(black_box(&theirs), c)),
    ]);
    line(case.name, times, case.target);
}

/// The same for a book that is read first.
fn back(case: &Case) {
    let book = &case.bytes;
    let [a, b, c] = &mut [[0; MOST_BYTES]; 3];
    let again =
        |room: &mut [u8]| read(black_box(book)).and_then(|book| write_into(book.edition, &book.parameters, &book.offers, room));
    let times = best([
        &mut || done(again(a)),
        &mut || done(plain::read(black_box(book)).and_then(|contents| plain::write(&contents, b))),
        &mut || done(plain::read(black_box(book)).and_then(|contents| plain::write_tuned(&contents, c))),
    ]);
    assert!([a, b, c].iter().all(|room| room.starts_with(book)), "{}", case.name);
    line(case.name, times, case.target);
}

/// The same for a book in the other edition.
fn converted(case: &Case) {
    let book = &case.bytes[..];
    let [a, b, c] = &mut [(); 3].map(|()| vec![7; case.room]);
    let due = convert_into(book, a).map_err(|refusal| (refusal.number(), refusal.place()));
    assert_eq!([plain::convert(book, b), plain::convert_tuned(book, c)], [due, due], "{}", case.name);
    assert!(a == b && b == c, "{}", case.name);
    let times =
        best([&mut || done(convert_into(black_box(book), a)), &mut || done(plain::convert(black_box(book), b)), &mut || {
            done(plain::convert_tuned(black_box(book), c))
        }]);
    line(case.name, times, case.target);
}
