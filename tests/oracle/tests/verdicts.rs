//! The books of crates/verdicts/data against the verdicts of crates/verdicts/stdout.

use oracle::{clear, row, sound, Outcome};
use std::fs;
use std::path::Path;

#[test]
fn every_book_has_its_verdict() {
    let home = Path::new(env!("CARGO_MANIFEST_DIR")).join("../../crates/verdicts");
    let verdicts = fs::read_to_string(home.join("stdout")).unwrap();
    assert!(verdicts.lines().count() >= 96);
    for line in verdicts.lines() {
        let name = line.split(':').next().unwrap();
        let book = fs::read(home.join("data").join(name)).unwrap();
        assert_eq!(format!("{name}: {}", verdict(&book)), line);
    }
}

/// A line as the program `verdicts` prints it: the fault when clearing, the fault of soundness, the rows that are read.
fn verdict(book: &[u8]) -> String {
    let clearing = match clear(book, 600, 600) {
        Outcome::Cleared(_) => "accepted".to_string(),
        Outcome::Refused { number, place } => format!("refused {number} {place}"),
    };
    let soundness = sound(book).map_or("sound".to_string(), |(number, place)| format!("unsound {number} {place}"));
    let rows = (0..700).filter(|&at| !row(book, at).is_empty()).count();
    format!("{clearing}, {soundness}, rows {rows}")
}
