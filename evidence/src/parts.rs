//! The state as words: its parts in order, each with its name and what its entries are.

use crate::Survey;
use crate::words::State;
use std::slice::{from_mut, from_ref};

/// What an entry is, and so which bound it has in a kept state.
#[derive(Clone, Copy, Debug, PartialEq, Eq)]
pub enum Entry {
    /// A count of the table or a number of the clock.
    Count,
    Unit,
    Arc,
    Position,
    Distance,
    Number,
    Level,
}

pub type Part<'a> = (&'static str, Entry, &'a [u16]);
pub type PartMut<'a> = (&'static str, Entry, &'a mut [u16]);

const PARTS: usize = 31;

// The order of the words, written once for both ways of lending.
macro_rules! parts {
    ($s:ident, $one:ident, $flat:ident, $($lend:tt)+) => {
        [
            ("units", Entry::Count, $one($($lend)+ $s.units)),
            ("links", Entry::Count, $one($($lend)+ $s.links)),
            ("ends", Entry::Unit, $s.ends.$flat()),
            ("stage", Entry::Count, $one($($lend)+ $s.stage)),
            ("made", Entry::Count, $one($($lend)+ $s.made)),
            ("rounds", Entry::Count, $one($($lend)+ $s.rounds)),
            ("requests", Entry::Count, $one($($lend)+ $s.requests)),
            ("color", Entry::Unit, $($lend)+ $s.color),
            ("parent", Entry::Unit, $($lend)+ $s.parent),
            ("dist", Entry::Distance, $($lend)+ $s.dist),
            ("next", Entry::Arc, $($lend)+ $s.next),
            ("pred", Entry::Arc, $($lend)+ $s.pred),
            ("jump", Entry::Arc, $($lend)+ $s.jump),
            ("sum", Entry::Number, $($lend)+ $s.sum),
            ("forward", Entry::Number, $($lend)+ $s.forward),
            ("nd", Entry::Number, $($lend)+ $s.nd),
            ("pre", Entry::Number, $($lend)+ $s.pre),
            ("low", Entry::Number, $($lend)+ $s.low),
            ("high", Entry::Number, $($lend)+ $s.high),
            ("little", Entry::Number, $($lend)+ $s.little),
            ("big", Entry::Number, $($lend)+ $s.big),
            ("global_low", Entry::Number, $($lend)+ $s.global_low),
            ("global_high", Entry::Number, $($lend)+ $s.global_high),
            ("aux_parents", Entry::Number, $($lend)+ $s.aux_parents),
            ("aux_links", Entry::Number, $($lend)+ $s.aux_links),
            ("aux_color", Entry::Unit, $($lend)+ $s.aux_color),
            ("class", Entry::Unit, $($lend)+ $s.class),
            ("label", Entry::Position, $($lend)+ $s.label),
            ("levels", Entry::Level, $($lend)+ $s.levels),
            ("plan", Entry::Unit, $($lend)+ $s.plan),
            ("given", Entry::Number, $one($($lend)+ $s.given)),
        ]
    };
}

impl Survey {
    /// The words of a state.
    pub const WORDS: usize = 12_295;

    pub fn parts(&self) -> [Part<'_>; PARTS] {
        parts!(self, from_ref, as_flattened, &)
    }

    pub fn parts_mut(&mut self) -> [PartMut<'_>; PARTS] {
        parts!(self, from_mut, as_flattened_mut, &mut)
    }

    /// The state that these words are.
    pub fn from_words(words: &State) -> Survey {
        let mut survey = Survey::new();
        let mut rest = &words[..];
        for (_, _, part) in survey.parts_mut() {
            let (front, later) = rest.split_at(part.len());
            part.copy_from_slice(front);
            rest = later;
        }
        survey
    }

    pub fn write_words(&self, words: &mut State) {
        let mut rest = &mut words[..];
        for (_, _, part) in self.parts() {
            let (front, later) = rest.split_at_mut(part.len());
            front.copy_from_slice(part);
            rest = later;
        }
    }

    pub fn to_words(&self) -> Box<State> {
        let mut words = Box::new([0; Survey::WORDS]);
        self.write_words(&mut words);
        words
    }
}
