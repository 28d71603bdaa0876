//! A live table (document 02, T-09): links, levels and the number of links at each unit, opened, added to and withdrawn
//! from.

use crate::levels::in_range;
use crate::table::{check_counts, check_ends, check_levels};
use crate::{ABSENT, HIGHEST_LEVEL, MAX_LINKS, MAX_UNITS, Refusal, check_table, level_of_word, word_of_level};

/// The words of a live table: units, links, ends, levels as their words, counts.
pub type LiveWords = [u16; LIVE_WORDS];
pub const LIVE_WORDS: usize = 2 + 3 * MAX_LINKS + MAX_UNITS;

/// The links with their levels in order of position; the rest of a table that was given is not looked at, but for the
/// counts.
#[derive(Clone, Debug, PartialEq, Eq)]
pub struct Live {
    pub units: u16,
    pub links: Vec<([u16; 2], i16)>,
    pub counts: [u16; MAX_UNITS],
}

/// Whether a link joins two units, named in either order.
fn joins(ends: [u16; 2], a: u16, b: u16) -> bool {
    ends == [a, b] || ends == [b, a]
}

impl Live {
    /// Refused with 4, 5, 6, 15, 16, 7, 8, 9.
    pub fn open(units: u16, table: &[u16], levels: &[i16]) -> Result<Live, Refusal> {
        check_table(units, table, levels)?;
        let links: Vec<_> = table.as_chunks().0.iter().copied().zip(levels.iter().copied()).collect();
        Ok(Live { units, counts: counts_of(&links), links })
    }

    /// A link at the end. Refused with 4, 6, 16, 7, 8, 9, 10 of the table, then 6, 16, 7, 8, 9 of the link.
    pub fn add(&mut self, a: u16, b: u16, level: i16) -> Result<(), Refusal> {
        self.check()?;
        if self.links.len() == MAX_LINKS {
            return Err(Refusal::TooManyLinks);
        }
        if !in_range(level) {
            return Err(Refusal::LevelOutside);
        }
        self.check_units(a, b)?;
        if self.position(a, b).is_some() {
            return Err(Refusal::RepeatedLink);
        }
        self.links.push(([a, b], level));
        self.counts = counts_of(&self.links);
        Ok(())
    }

    /// The link between two units. Refused with 4, 6, 16, 7, 8, 9, 10 of the table, then 7, 8, 21 of the units.
    pub fn withdraw(&mut self, a: u16, b: u16) -> Result<(), Refusal> {
        self.check()?;
        self.check_units(a, b)?;
        let position = self.position(a, b).ok_or(Refusal::NoSuchLink)?;
        self.links.remove(position);
        self.counts = counts_of(&self.links);
        Ok(())
    }

    /// 4, 6, 16, 7, 8, 9, and 10 if a stored count is not the true one.
    fn check(&self) -> Result<(), Refusal> {
        let (ends, levels): (Vec<[u16; 2]>, Vec<i16>) = self.links.iter().copied().unzip();
        check_counts(self.units, ends.as_flattened())?;
        check_levels(&levels)?;
        check_ends(self.units, ends.as_flattened())?;
        if self.counts != counts_of(&self.links) {
            return Err(Refusal::NotKept);
        }
        Ok(())
    }

    fn check_units(&self, a: u16, b: u16) -> Result<(), Refusal> {
        if a >= self.units || b >= self.units {
            return Err(Refusal::EndMissing);
        }
        if a == b { Err(Refusal::EqualEnds) } else { Ok(()) }
    }

    fn position(&self, a: u16, b: u16) -> Option<usize> {
        self.links.iter().position(|&(ends, _)| joins(ends, a, b))
    }

    /// The live table that these words are. One that says more links than it has room for has one link too many.
    pub fn from_words(words: &LiveWords) -> Live {
        let (ends, rest) = words[2..].split_at(2 * MAX_LINKS);
        let (levels, counts) = rest.split_at(MAX_LINKS);
        let mut links: Vec<([u16; 2], i16)> =
            ends.as_chunks().0.iter().copied().zip(levels.iter().map(|&word| level_of_word(word))).collect();
        links.push(([ABSENT; 2], HIGHEST_LEVEL));
        links.truncate(words[1].into());
        Live { units: words[0], links, counts: counts.try_into().expect("as many as units") }
    }

    /// Ends past the links are absent and levels 0.
    pub fn to_words(&self) -> Box<LiveWords> {
        let mut words = Box::new([ABSENT; LIVE_WORDS]);
        (words[0], words[1]) = (self.units, self.links.len() as u16);
        let (ends, rest) = words[2..].split_at_mut(2 * MAX_LINKS);
        let (levels, counts) = rest.split_at_mut(MAX_LINKS);
        levels.fill(0);
        for (j, &(link, level)) in self.links.iter().enumerate() {
            ends.as_chunks_mut().0[j] = link;
            levels[j] = word_of_level(level);
        }
        counts.copy_from_slice(&self.counts);
        words
    }
}

/// How many links have an end at each unit. An end that is no unit counts for none.
fn counts_of(links: &[([u16; 2], i16)]) -> [u16; MAX_UNITS] {
    let mut counts = [0; MAX_UNITS];
    for &end in links.iter().flat_map(|(ends, _)| ends) {
        if let Some(count) = counts.get_mut(usize::from(end)) {
            *count += 1;
        }
    }
    counts
}
