//! The search for differences: calls of a library, by its C face or behind the same calls, made beside the plain
//! version's, and all that they leave compared. A case depends on its seed and its number alone.

mod calls;
mod cases;
mod lent;
mod questions;
mod seats;
mod tables;
mod tally;

use crate::random::Random;
use crate::words::Calls;
pub use tally::REFUSALS;
use tally::Tally;

/// A library under search, and what came up so far.
pub struct Search {
    library: Calls,
    tally: Tally,
}

impl Search {
    pub fn new(library: Calls) -> Search {
        Search { library, tally: Tally::default() }
    }

    /// Runs one case; where the two sides differ, says in what.
    pub fn case(&mut self, seed: u64, number: u64) -> Result<(), String> {
        self.any_case(&mut Random::new(seed, number))
    }

    /// The first case of a seed that differs, among so many, and in what.
    pub fn first_found(&mut self, seed: u64, cases: u64) -> Option<(u64, String)> {
        (0..cases).find_map(|number| self.case(seed, number).err().map(|difference| (number, difference)))
    }

    pub fn print(&self) {
        self.tally.print();
    }

    /// The numbers that a call may give, and that did not come up.
    pub fn missing(&self) -> Vec<String> {
        self.tally.missing()
    }
}
