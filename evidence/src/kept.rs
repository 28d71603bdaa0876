//! Document 01's "kept".

use crate::parts::Entry;
use crate::table::check_links;
use crate::{ABSENT, FINISHED, LOWEST_LEVEL, MAX_LINKS, MAX_NUMBER, Survey, ceiling, word_of_level};

/// Every entry is absent or below the count. Absent wraps to 0 here.
fn names(entries: &[u16], count: u16) -> bool {
    greatest(entries, |x| x.wrapping_add(1)) <= count
}

fn numbers(entries: &[u16]) -> bool {
    greatest(entries, |x| x) <= MAX_NUMBER
}

fn distances(entries: &[u16]) -> bool {
    greatest(entries, |x| if x == ABSENT { 0 } else { x }) <= MAX_NUMBER
}

/// Every entry is the word of a level, 0 or so much below it.
fn levels(entries: &[u16]) -> bool {
    greatest(entries, u16::wrapping_neg) <= word_of_level(-LOWEST_LEVEL)
}

fn greatest(entries: &[u16], of: impl Fn(u16) -> u16) -> u16 {
    entries.iter().fold(0, |most, &x| most.max(of(x)))
}

impl Survey {
    /// Every entry of every array is judged, those past the counts too (W9).
    pub fn kept(&self) -> bool {
        self.table_kept() && self.clock_kept() && self.entries_kept()
    }

    fn table_kept(&self) -> bool {
        self.m() <= MAX_LINKS && check_links(self.units, self.pairs().as_flattened()).is_ok()
    }

    fn clock_kept(&self) -> bool {
        let made = match self.stage {
            FINISHED => self.made == 0,
            stage => self.made < ceiling(self.units, stage),
        };
        made && self.rounds <= Survey::MAX_ROUNDS && self.requests <= Survey::MAX_REQUESTS
    }

    fn entries_kept(&self) -> bool {
        self.parts().iter().all(|&(_, entry, entries)| match entry {
            Entry::Count => true,
            Entry::Unit => names(entries, self.units),
            Entry::Arc => names(entries, 2 * self.units),
            Entry::Position => names(entries, self.links),
            Entry::Distance => distances(entries),
            Entry::Number => numbers(entries),
            Entry::Level => levels(entries),
        })
    }
}
