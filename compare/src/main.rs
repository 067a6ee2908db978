//! Compares the archive's functions and the program with evaluators written from docs/SPECIFICATION.md and not from our
//! code, on random and damaged inputs (SPEC 14.4). Every lent number is checked after every call (SPEC 12.1). It stops
//! at the first difference and prints the case; it fails too where some outcome came up too rarely to say that it was
//! compared (tally.rs).
//!
//!     compare PROGRAM [PERCENT [SEED]]      PROGRAM is towerwatch; PERCENT of the gate's cases (100 if not said,
//!                                           cases.rs has their numbers); SEED 1 if not said

mod archive;
mod card;
mod cases;
mod random;
mod rule;
mod table;
mod tally;

use cases::{Run, SORTS};
use tally::Tally;

/// Runs each sort of cases in a thread, with a generator of its own.
fn compare(program: &str, percent: u64, seed: u64) -> Tally {
    let mut tally = Tally::default();
    std::thread::scope(|scope| {
        let threads = SORTS.iter().zip(0..).map(|(sort, i)| {
            let cases = sort.gate * percent / 100;
            let thread = scope.spawn(move || {
                let mut run = Run::new(seed << 8 | i, program);
                (sort.run)(&mut run, cases);
                run.tally
            });
            (cases, sort.name, thread)
        });
        for (cases, name, thread) in threads.collect::<Vec<_>>() {
            tally.join(thread.join().expect("a thread that ends well"));
            println!("{cases} {name}");
        }
    });
    tally
}

fn main() {
    let mut arguments = std::env::args().skip(1);
    let program = arguments.next().expect("the path of towerwatch");
    let mut numbers = arguments.map(|a| a.parse::<u64>().expect("a number"));
    let percent = numbers.next().unwrap_or(100);
    let seed = numbers.next().unwrap_or(1);
    if !compare(&program, percent, seed).is_enough(percent) {
        std::process::exit(1);
    }
}
