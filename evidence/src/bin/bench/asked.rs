//! What a question costs beside a survey: a ring, a lifting order, doubtful links, one-way links, on sites as large as
//! may be.

use crate::work::{LARGEST, site};
use plain::face::PROVED;
use plain::random::Random;
use plain::sites::{Site, any_parents, renamed, scattered, strip};
use plain::words::{Calls, PLAIN, State};
use plain::{MAX_LINKS, MAX_PAIRS, Survey, lifting_order, report_length, ring_through};
use std::time::Instant;

/// The calls that ask.
#[derive(Clone, Copy, Debug, PartialEq, Eq)]
pub enum Asked {
    Ring,
    LiftingOrder,
    Doubtful,
    OneWay,
}

pub const ASKED: [(&str, Asked); 4] = [
    ("ring", Asked::Ring),
    ("lifting", Asked::LiftingOrder),
    ("doubtful", Asked::Doubtful),
    ("one-way", Asked::OneWay),
];

/// A site with what is asked of it, and the memory for it.
pub struct Question {
    pub site: Site,
    first: u16,
    second: u16,
    pairs: Vec<u16>,
    marks: Vec<u8>,
    state: Box<State>,
    out: Vec<u16>,
    surveyed: Box<State>,
    report: Vec<u8>,
}

impl Question {
    /// Of the first and the last link, with as many pairs as may be and every third link doubtful.
    fn new(site: Site) -> Question {
        let pairs = some_pairs(&site, |later| later / 2);
        let marks = (0..site.links()).map(|j| u8::from(j % 3 == 1)).collect();
        let (first, second) = (0, site.links().saturating_sub(1) as u16);
        Question::with(site, first, second, pairs, marks)
    }

    fn with(site: Site, first: u16, second: u16, pairs: Vec<u16>, marks: Vec<u8>) -> Question {
        let mut survey = Survey::new();
        survey.load(site.units, &site.table, &site.levels).expect("a site passes the checks");
        survey.run(u16::MAX).expect("a loaded survey runs");
        let out = vec![0; usize::from(site.units)];
        let report = vec![0; report_length(site.units.into(), site.links())];
        Question {
            site,
            first,
            second,
            pairs,
            marks,
            state: survey.to_words(),
            out,
            surveyed: survey.to_words(),
            report,
        }
    }

    /// By name: a shape of 256 units, `strip`, or `drawn:` and a number that fixes it.
    pub fn named(name: &str) -> Option<Question> {
        match name.strip_prefix("drawn:") {
            Some(number) => Some(drawn(number.parse().ok()?)),
            None if name == "strip" => Some(Question::new(strip(256, 4))),
            None => site(name, 256).map(Question::new),
        }
    }

    /// Asks once, and is not refused.
    pub fn ask(&mut self, asked: Asked, calls: &Calls) {
        let (state, out, mut word) = (&self.state, &mut self.out[..], 0);
        let number = match asked {
            Asked::Ring => (calls.ring)(state, self.first, self.second, out, &mut word),
            Asked::LiftingOrder => (calls.lifting_order)(state, &self.pairs, out),
            Asked::Doubtful => (calls.doubtful)(state, self.first, self.second, &self.marks, &mut word),
            Asked::OneWay => (calls.one_way)(self.site.units, &self.site.table, out, &mut word),
        };
        assert!(number == 0 || (asked == Asked::LiftingOrder && number == 20), "refused with {number}");
    }

    /// A survey of the same table: load, run to the end, report.
    pub fn survey(&mut self, calls: &Calls) {
        let Question { site, surveyed, report, .. } = self;
        let done = (calls.load)(surveyed, site.units, &site.table, &site.levels) == 0
            && (calls.run)(surveyed, u16::MAX, &mut 0) == 0
            && (calls.state_report)(surveyed, report) == 0;
        assert!(done, "a call was refused");
    }
}

/// Pairs that an order keeps, as many as may be: a unit before another that comes to stand earlier.
fn some_pairs(site: &Site, mut earlier: impl FnMut(usize) -> usize) -> Vec<u16> {
    let Some(mut grown) = lifting_order(site.units, site.table.as_chunks().0, &[]) else { return Vec::new() };
    grown.reverse();
    (0..MAX_PAIRS)
        .map(|k| 1 + k % (grown.len() - 1).max(1))
        .filter(|&later| later < grown.len())
        .flat_map(|later| [grown[later], grown[earlier(later)]])
        .collect()
}

/// A site of near 256 units, its links in some order, and positions, pairs and marks that chance picks.
fn drawn(number: u64) -> Question {
    let random = &mut Random::new(32, number);
    let n = random.pick(&[256, 256, 256, 255, 128]);
    let (kind, width) = (random.below(7), random.between(1, 4));
    let mut site = match kind {
        0..=1 => strip(n, width),
        2 => scattered(random, n, 4 * n),
        3 => with_chords(random, strip(n, 1)),
        4 => with_chords(random, strip(n, 2)),
        5 => climbing(random, n),
        _ => site("ladder", n).expect("a shape"),
    };
    if random.once_in(2) {
        site = renamed(random, &site);
    } else {
        let mut links: Vec<[u16; 2]> = site.table.as_chunks().0.to_vec();
        match random.below(4) {
            0 => random.shuffle(&mut links),
            1 => links.reverse(),
            2 => {
                links.reverse();
                links.iter_mut().for_each(|link| link.reverse());
            }
            _ => {}
        }
        site.table = links.concat();
    }
    // every unit has a link, and all are linked up
    let parents = any_parents(random, site.units, &site.table);
    let linked = parents.iter().skip(1).all(|&parent| parent != plain::ABSENT);
    if !linked {
        site = strip(n, 4);
    }
    let last = site.links() - 1;
    let position = |random: &mut Random| {
        if random.once_in(2) { random.pick(&[0, last]) as u16 } else { random.below(last + 1) as u16 }
    };
    let (first, second) = (position(random), position(random));
    let often = random.pick(&[3, 30, 3000]);
    let mut marks: Vec<u8> = (0..=last).map(|_| u8::from(random.once_in(often))).collect();
    // a sure link and a doubtful one: no ring of sure links has both, so all links are looked at too
    (marks[usize::from(first)], marks[usize::from(second)]) = (0, 1);
    let pairs = some_pairs(&site, |later| random.below(later));
    Question::with(site, first, second, pairs, marks)
}

/// Links between units that chance picks, until there are as many as may be.
fn with_chords(random: &mut Random, mut site: Site) -> Site {
    let n = usize::from(site.units);
    while site.links() < MAX_LINKS.min(n * (n - 1) / 4) {
        let (a, b) = (random.below(n) as u16, random.below(n) as u16);
        if a < b && !site.table.as_chunks().0.contains(&[a, b]) {
            site.table.extend([a, b]);
            site.levels.push(plain::LOWEST_LEVEL);
        }
    }
    site
}

/// A chain up and, among its last units, every link up: many passes of one-way links.
fn climbing(random: &mut Random, n: usize) -> Site {
    let mut site = strip(n, 1);
    let mut more: Vec<[u16; 2]> = Vec::new();
    let last = random.between(n - 46, n - 10) as u16;
    for b in last..n as u16 {
        more.extend((last..b.saturating_sub(1)).map(|a| [a, b]));
    }
    random.shuffle(&mut more);
    more.truncate(MAX_LINKS - site.links());
    site.levels.resize(site.links() + more.len(), plain::LOWEST_LEVEL);
    site.table.extend(more.concat());
    site
}

/// The best of some times, in microseconds.
fn best(times: usize, mut call: impl FnMut()) -> f64 {
    let once = |call: &mut dyn FnMut()| {
        let start = Instant::now();
        call();
        start.elapsed().as_secs_f64() * 1e6
    };
    (0..times).map(|_| once(&mut call)).fold(f64::INFINITY, f64::min)
}

/// The sites on which each call takes longest: of the shapes, and of so many drawn ones.
pub fn worst(count: u64) {
    println!("Microseconds, the best of some calls: of the question, and of a survey of the same table on lent words.");
    println!(
        "The three sites on which each question takes longest, of {count} drawn ones and {} shapes.\n",
        LARGEST.len() + 1
    );
    println!(
        "{:10}{:>12}{:>7}{:>7}{:>11}{:>11}{:>8}",
        "question", "site", "units", "links", "question", "survey", "ratio"
    );
    let names = || {
        LARGEST
            .iter()
            .map(|shape| shape.to_string())
            .chain(["strip".into()])
            .chain((0..count).map(|number| format!("drawn:{number}")))
    };
    for (name, asked) in ASKED {
        let time = |site: &str, times: usize| {
            let mut question = Question::named(site).expect("a site");
            best(times, || question.ask(asked, &PROVED))
        };
        // a short look at all, a long one at those that seemed to take longest
        let mut found: Vec<(f64, String)> = names().map(|site| (time(&site, 5), site)).collect();
        found.sort_by(|a, b| b.0.total_cmp(&a.0));
        let mut found: Vec<(f64, String)> =
            found.into_iter().take(40).map(|(_, site)| (time(&site, 200), site)).collect();
        found.sort_by(|a, b| b.0.total_cmp(&a.0));
        for (asking, site) in found.into_iter().take(3) {
            let mut question = Question::named(&site).expect("a site");
            let survey = best(200, || question.survey(&PROVED));
            let (units, links) = (question.site.units, question.site.links());
            println!("{name:10}{site:>12}{units:>7}{links:>7}{asking:>11.1}{survey:>11.1}{:>8.2}", asking / survey);
        }
    }
}

/// One question so many times, for a count of instructions; or surveys of the same table.
pub fn one(side: &str, work: &str, name: &str, times: usize) -> Option<()> {
    let calls = match side {
        "proved" => PROVED,
        "plain" => PLAIN,
        _ => return None,
    };
    let mut question = Question::named(name)?;
    let asked = ASKED.iter().find(|(name, _)| *name == work).map(|&(_, asked)| asked);
    for _ in 0..times {
        match asked {
            Some(asked) => question.ask(asked, &calls),
            None if work == "survey" => question.survey(&calls),
            None => return None,
        }
    }
    Some(())
}

/// The parts of a question that the stack is measured with: positions that are on a ring where there is one.
pub fn positions(site: &Site) -> [u16; 2] {
    let (links, last) = (site.table.as_chunks().0, site.links() - 1);
    let second = (0..=last).rev().find(|&second| ring_through(site.units, links, 0, second).is_some()).unwrap_or(last);
    [0, second as u16]
}

pub fn pairs(site: &Site) -> Vec<u16> {
    some_pairs(site, |later| later / 2)
}
