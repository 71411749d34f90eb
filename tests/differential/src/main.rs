//! differential [SEED] [COUNT]: runs the random calls of so many seeds, from SEED on, through the C interface and compares
//! everything that comes back with the oracle's. Prints how many calls of each kind there were, or a difference and its seed,
//! with exit status 1; so too where a long run misses a kind.
//! differential layouts: prints the size of every struct and the offset of every field, as tests/layouts does in C and Python.

mod compare;
mod converting;
mod curve;
mod days;
mod explaining;
mod kinds;
mod layouts;
mod pairs;
mod reading;
mod steps;
mod tally;
mod texts;
mod writing;

use oracle::random;
use std::env;
use std::process::ExitCode;
use std::thread;
use tally::Tally;

const SEED: u64 = 20_260_601;
const COUNT: u64 = 50_000;

fn main() -> ExitCode {
    if env::args().skip(1).eq(["layouts"]) {
        layouts::print();
        return ExitCode::SUCCESS;
    }
    let arguments: Result<Vec<u64>, _> = env::args().skip(1).map(|word| word.parse()).collect();
    let result = match arguments.as_deref() {
        Ok([]) => run(SEED, COUNT),
        Ok([seed]) => run(*seed, COUNT),
        Ok([seed, count]) => run(*seed, *count),
        _ => Err("usage: differential [SEED] [COUNT] | layouts".to_string()),
    };
    match result {
        Ok(()) => ExitCode::SUCCESS,
        Err(message) => {
            eprintln!("{message}");
            ExitCode::FAILURE
        }
    }
}

/// Shares the seeds out among as many threads as there are processors.
fn run(first: u64, count: u64) -> Result<(), String> {
    let workers = thread::available_parallelism().map_or(1, usize::from);
    let tallies: Vec<Result<Tally, String>> = thread::scope(|threads| {
        let share = |worker| (0..count).skip(worker).step_by(workers).map(move |at| first.wrapping_add(at));
        let threads: Vec<_> = (0..workers).map(|worker| threads.spawn(move || compared(share(worker)))).collect();
        threads.into_iter().map(|thread| thread.join().expect("a worker")).collect()
    });
    let tally = tallies.into_iter().reduce(|one, other| Ok(one?.and(other?))).expect("a worker")?;
    tally.print();
    match tally.missing()[..] {
        [] => Ok(()),
        _ => Err(format!("no call of kind {}", tally.missing().join(", "))),
    }
}

fn compared(seeds: impl Iterator<Item = u64>) -> Result<Tally, String> {
    let mut tally = Tally::default();
    for seed in seeds {
        let call = random::call(seed);
        let compared = compare::call(&call, seed).map_err(|difference| format!("seed {seed}: {difference}"))?;
        tally.add(&call, &compared);
    }
    Ok(tally)
}
