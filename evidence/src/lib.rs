//! The link survey in plain Rust, written from documents 01 and 02 and docs/DECISIONS.md and from nothing of the proved
//! code: a second opinion for the tests, and the measure of the proved library's speed.
//!
//! The W-numbers in comments are rows of docs/DECISIONS.md.

mod answers;
mod calls;
mod ceilings;
mod doubtful;
mod files;
mod frames;
mod handsets;
mod kept;
mod levels;
mod lifting;
mod live;
mod one_way;
pub mod parts;
mod plan;
mod refusal;
mod report;
mod rings;
mod stages;
mod sums;
mod survey;
mod table;

/// What the calls give on lent words, as in the C face.
pub mod words;

/// Eight states and a turn, on lent words.
pub mod seats;

#[cfg(feature = "face")]
pub mod face;

pub mod damage;
pub mod random;
pub mod search;
pub mod sites;
pub mod states;

pub use answers::{LinkAnswer, UnitAnswer};
pub use calls::Status;
pub use ceilings::{ceiling, countdown, lg};
pub use doubtful::{Verdict, ringed, verdict};
pub use files::{Contents, file_length, read_file, write_file};
pub use handsets::{FOREMAN_LINE, SERVICE_LINE};
pub use levels::{HIGHEST_LEVEL, LOWEST_LEVEL, byte_of_level, level_of_byte, level_of_word, word_of_level};
pub use lifting::{MAX_PAIRS, check_pairs, lifting_order};
pub use live::{LIVE_WORDS, Live, LiveWords};
pub use one_way::one_way;
pub use plan::check_plan;
pub use refusal::Refusal;
pub use report::{MAX_INPUT, report_length, report_of_file};
pub use rings::{judge_ring, ring_through};
pub use sums::Sums;
pub use survey::Survey;
pub use table::{check_fresh, check_table};

/// The mark "absent". It compares as this number.
pub const ABSENT: u16 = 65535;
pub const MAX_UNITS: usize = 256;
pub const MAX_LINKS: usize = 1024;
/// The bound of a stored number that names nothing.
pub const MAX_NUMBER: u16 = 2048;
/// The stage of a finished survey.
pub const FINISHED: u16 = 11;
