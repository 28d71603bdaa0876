//! The proved library against the plain version, call by call: `fuzz [SEED [COUNT [FIRST]]]`. A case depends on the
//! seed and on its number alone, so `fuzz SEED 1 NUMBER` makes one again.

use plain::face::PROVED;
use plain::search::Search;
use std::process::ExitCode;

/// A run of so many cases has to bring up every number of every call.
const MANY: u64 = 100_000;

fn argument(place: usize, default: u64) -> u64 {
    match std::env::args().nth(place) {
        None => default,
        Some(word) => word.parse().unwrap_or_else(|_| {
            eprintln!("usage: fuzz [SEED [COUNT [FIRST]]]");
            std::process::exit(2)
        }),
    }
}

fn main() -> ExitCode {
    let (seed, count, first) = (argument(1, 1), argument(2, 1_000_000), argument(3, 0));
    println!("seed {seed}, {count} cases from {first} on");
    let mut search = Search::new(PROVED);
    for case in first..first + count {
        if let Err(difference) = search.case(seed, case) {
            println!("case {case} of seed {seed} differs: {difference}");
            return ExitCode::FAILURE;
        }
    }
    search.print();
    let missing = search.missing();
    if !missing.is_empty() {
        println!("did not come up: {}", missing.join(", "));
        if count >= MANY {
            return ExitCode::FAILURE;
        }
    }
    ExitCode::SUCCESS
}
