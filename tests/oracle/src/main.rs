//! oracle: reads a book from standard input and prints what the program `clear` prints for it.
//! oracle FIRST COUNT FOLDER: writes the random books of so many seeds, N.book, with what is printed for each, N.out.
//! oracle calls FIRST COUNT: writes the random calls of so many seeds to standard output, as `written` says.

mod written;

use oracle::{printed, random};
use std::io::{self, BufWriter, Read, Write};
use std::path::Path;
use std::{env, fs};

fn main() -> io::Result<()> {
    let arguments: Vec<String> = env::args().skip(1).collect();
    match &arguments[..] {
        [] => clear(),
        [word, first, count] if word == "calls" => write_calls(seed(first)?, seed(count)?),
        [first, count, folder] => write_books(seed(first)?, seed(count)?, Path::new(folder)),
        _ => Err(io::Error::other("usage: oracle [FIRST COUNT FOLDER | calls FIRST COUNT]")),
    }
}

fn clear() -> io::Result<()> {
    let mut book = Vec::new();
    io::stdin().read_to_end(&mut book)?;
    io::stdout().write_all(printed(&book).as_bytes())
}

fn seed(text: &str) -> io::Result<u64> {
    text.parse().map_err(io::Error::other)
}

fn write_books(first: u64, count: u64, folder: &Path) -> io::Result<()> {
    for seed in first..first + count {
        let book = random::call(seed).book;
        fs::write(folder.join(format!("{seed}.book")), &book)?;
        fs::write(folder.join(format!("{seed}.out")), printed(&book))?;
    }
    Ok(())
}

fn write_calls(first: u64, count: u64) -> io::Result<()> {
    let mut out = BufWriter::new(io::stdout().lock());
    (first..first + count).try_for_each(|seed| out.write_all(&written::call(&random::call(seed))))?;
    out.flush()
}
