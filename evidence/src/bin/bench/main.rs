//! The proved library beside the plain version.
//!
//!     bench                            times and their growth
//!     bench stack                      the deepest stack of each call
//!     bench worst [COUNT]              questions (a ring, a lifting order, doubtful links, one-way links) on the
//!                                      sites on which they take longest, of the shapes and of COUNT drawn ones,
//!                                      beside a survey
//!     bench one SIDE WORK SITE TIMES   one side alone, for a count of instructions: proved, plain or plain-words;
//!                                      words or bytes; path, ring, full, star or ladder of 256 units, or full:64
//!                                      and its like; or proved or plain; ring, lifting, doubtful, one-way or survey;
//!                                      one of these sites, strip, or drawn:NUMBER

mod asked;
mod stack;
mod times;
mod work;

use std::process::ExitCode;
use work::{Bench, Side, Work, site};

fn one(arguments: &[&str]) -> Option<()> {
    let [side, work, shape, times] = arguments else { return None };
    if !["words", "bytes"].contains(work) {
        return asked::one(side, work, shape, times.parse().ok()?);
    }
    let side = match *side {
        "proved" => Side::Proved,
        "plain" => Side::Plain,
        "plain-words" => Side::PlainOnWords,
        _ => return None,
    };
    let work = match *work {
        "words" => Work::Words,
        "bytes" => Work::Bytes,
        _ => return None,
    };
    let (shape, units) = shape.split_once(':').unwrap_or((shape, "256"));
    let mut bench = Bench::new(site(shape, units.parse().ok().filter(|n| (3..=256).contains(n))?)?);
    for _ in 0..times.parse().ok()? {
        bench.once(side, work, 0);
    }
    Some(())
}

fn main() -> ExitCode {
    let arguments: Vec<String> = std::env::args().skip(1).collect();
    let arguments: Vec<&str> = arguments.iter().map(String::as_str).collect();
    match arguments[..] {
        [] => {
            times::largest();
            times::growth();
        }
        ["stack"] => stack::print(),
        ["worst"] => asked::worst(3000),
        ["worst", count] if count.parse::<u64>().is_ok() => asked::worst(count.parse().unwrap_or(0)),
        ["one", ref rest @ ..] if one(rest).is_some() => {}
        _ => {
            eprintln!(
                "usage: bench | bench stack | bench worst [COUNT] | bench one proved|plain|plain-words words|bytes \
                 path|ring|full|star|ladder[:UNITS] TIMES"
            );
            eprintln!(
                "       bench one proved|plain ring|lifting|doubtful|one-way|survey \
                 path|ring|full|star|ladder|strip|drawn:NUMBER TIMES"
            );
            return ExitCode::from(2);
        }
    }
    ExitCode::SUCCESS
}
