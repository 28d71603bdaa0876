//! Kept states of many kinds, also such as no load reaches.

use crate::parts::Entry;
use crate::random::Random;
use crate::sites::{Site, any_site, some_level};
use crate::{ABSENT, FINISHED, MAX_NUMBER, Survey, ceiling, word_of_level};

pub fn loaded(site: &Site) -> Survey {
    let mut survey = Survey::new();
    survey.load_stored(site.units, &site.table, &site.levels).expect("a site passes the checks");
    survey
}

/// A state some rounds after a load, often at the end.
pub fn reached(random: &mut Random) -> Survey {
    let mut survey = loaded(&any_site(random));
    let budget = match random.below(4) {
        0 => random.below(12),
        1 => random.below(60),
        2 => random.below(804),
        _ => 804,
    };
    survey.run(budget as u16).expect("a loaded state is kept");
    survey
}

/// The counts that bound what a state may name.
#[derive(Clone, Copy)]
pub struct Counts {
    units: u16,
    links: u16,
}

impl Counts {
    pub fn of(survey: &Survey) -> Counts {
        Counts { units: survey.units, links: survey.links }
    }

    /// How many things an entry may name, or the values that it may have; and whether it may be absent.
    fn bound(self, entry: Entry) -> (u16, bool) {
        match entry {
            Entry::Count | Entry::Level => (0, false),
            Entry::Unit => (self.units, true),
            Entry::Arc => (2 * self.units, true),
            Entry::Position => (self.links, true),
            Entry::Distance => (MAX_NUMBER + 1, true),
            Entry::Number => (MAX_NUMBER + 1, false),
        }
    }

    /// A value that a kept state may have at such an entry.
    fn value(self, random: &mut Random, entry: Entry) -> u16 {
        if entry == Entry::Level {
            return word_of_level(some_level(random));
        }
        let (count, absent) = self.bound(entry);
        let near = |x: u16| if x < count { x } else { 0 };
        if count == 0 || (absent && random.once_in(8)) {
            return if absent { ABSENT } else { 0 };
        }
        match random.below(8) {
            0 => count - 1,
            1 => near(random.below(3) as u16),
            // numbers often are places or distances
            2..=5 => near(random.below(usize::from(self.units) + 1) as u16),
            _ => random.below(usize::from(count)) as u16,
        }
    }
}

/// The entries of a part that a kept state leaves free: the ends of the links are not.
fn free<'a>(name: &str, part: &'a mut [u16], counts: Counts) -> &'a mut [u16] {
    if name == "ends" { &mut part[2 * usize::from(counts.links)..] } else { part }
}

fn fill(random: &mut Random, survey: &mut Survey) {
    let counts = Counts::of(survey);
    for (name, entry, part) in survey.parts_mut() {
        if entry == Entry::Count {
            continue;
        }
        let part = free(name, part, counts);
        match random.below(8) {
            0 => {}
            1 => part.fill(counts.value(random, entry)),
            _ => part.iter_mut().for_each(|x| *x = counts.value(random, entry)),
        }
    }
}

/// Any stage, with its clock.
fn set_clock(random: &mut Random, survey: &mut Survey) {
    survey.stage = random.between(1, usize::from(FINISHED)) as u16;
    survey.made = match ceiling(survey.units, survey.stage) {
        0 => 0,
        most if random.once_in(2) => random.below(usize::from(most).min(3)) as u16,
        most => random.below(usize::from(most)) as u16,
    };
    let mut near = |limit: u16| match random.below(4) {
        0 => limit - random.below(4) as u16,
        1 => 0,
        _ => random.below(usize::from(limit) + 1) as u16,
    };
    survey.rounds = near(Survey::MAX_ROUNDS);
    survey.requests = near(Survey::MAX_REQUESTS);
}

/// Some entries of a kept state changed within their bounds.
pub fn alter(random: &mut Random, survey: &mut Survey) {
    let counts = Counts::of(survey);
    for _ in 0..1 << random.below(8) {
        let mut parts = survey.parts_mut();
        let which = random.below(parts.len());
        let (name, entry, part) = &mut parts[which];
        let part = free(name, part, counts);
        if *entry != Entry::Count && !part.is_empty() {
            // mostly where the units are, few as they may be
            let reach = if random.once_in(4) { part.len() } else { part.len().min(2 * usize::from(counts.units)) };
            part[random.below(reach)] = counts.value(random, *entry);
        }
    }
}

/// A kept state of any kind.
pub fn any_kept(random: &mut Random) -> Survey {
    let mut survey = reached(random);
    match random.below(4) {
        0 => {}
        1 => alter(random, &mut survey),
        2 => {
            set_clock(random, &mut survey);
            alter(random, &mut survey);
        }
        _ => {
            set_clock(random, &mut survey);
            fill(random, &mut survey);
        }
    }
    debug_assert!(survey.kept());
    survey
}
