//! Clears a book and prints what it clears: `cargo run --example clear [BOOK]`, by default the one that ships with the project.

use std::path::Path;
use std::{env, fs, process::ExitCode};

fn main() -> ExitCode {
    let shipped = Path::new(env!("CARGO_MANIFEST_DIR")).join("../../examples/reference.book");
    let path = env::args_os().nth(1).map_or(shipped, Into::into);
    let book = match fs::read(&path) {
        Ok(book) => book,
        Err(error) => {
            eprintln!("{}: {error}", path.display());
            return ExitCode::from(2);
        }
    };
    match ozpinduru::clear(&book) {
        Err(refusal) => {
            println!("{refusal}");
            ExitCode::FAILURE
        }
        Ok(clearing) => {
            print(&clearing);
            ExitCode::SUCCESS
        }
    }
}

fn print(clearing: &ozpinduru::Clearing) {
    println!("cleared {}", clearing.total);
    println!("price {}", clearing.price.map_or("-".to_string(), |price| price.to_string()));
    for row in &clearing.rows {
        println!("{} {} {} {}", row.resource, row.cleared, row.committed, row.make_whole);
    }
    println!("daily {}", clearing.daily);
    println!("year {}", clearing.year);
}
