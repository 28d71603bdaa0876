//! What is measured: a site surveyed from its table of words to its report, or from its file to its report.

use plain::face::PROVED;
use plain::random::Random;
use plain::sites::{Site, ladder, path, ring, scattered, some_level, star};
use plain::words::{Calls, PLAIN, State};
use plain::{Survey, file_length, report_length, report_of_file, write_file};

#[derive(Clone, Copy, PartialEq, Eq)]
pub enum Side {
    /// The proved library, through its C face.
    Proved,
    /// The plain version, on its own struct.
    Plain,
    /// The plain version behind the C face's calls: the state is lent as words and copied in and out.
    PlainOnWords,
}

#[derive(Clone, Copy, PartialEq, Eq)]
pub enum Work {
    /// Load, run to the end, report.
    Words,
    /// From the bytes of a file to the bytes of its report.
    Bytes,
}

/// The largest sites.
pub const LARGEST: [&str; 5] = ["path", "ring", "full", "star", "ladder"];

/// A site by its shape and number of units, with levels that chance picks.
pub fn site(shape: &str, units: usize) -> Option<Site> {
    let site = match shape {
        "path" => path(units),
        "ring" => ring(units),
        "full" => scattered(&mut Random::new(256, 1024), units, 4 * units),
        "star" => star(units),
        "ladder" => ladder(units),
        _ => return None,
    };
    let random = &mut Random::new(128, 1024);
    let levels = site.levels.iter().map(|_| some_level(random)).collect();
    Some(Site { levels, ..site })
}

/// Places that memory is moved by, so that no result hangs on how it lies.
pub const SHIFTS: usize = 64;

/// A site with the memory that its survey needs.
pub struct Bench {
    pub site: Site,
    file: Vec<u8>,
    survey: Box<Survey>,
    state: Vec<u16>,
    out: Vec<u8>,
    length: usize,
}

impl Bench {
    pub fn new(site: Site) -> Bench {
        let mut file = vec![0; file_length(site.links())];
        write_file(site.units, &site.table, &site.levels, &mut file).expect("a site passes the checks");
        let length = report_length(usize::from(site.units), site.links());
        let state = vec![0; Survey::WORDS + SHIFTS];
        Bench { site, file, survey: Box::default(), state, out: vec![0; length + SHIFTS], length }
    }

    /// Surveys the site once, with its memory moved by some places.
    pub fn once(&mut self, side: Side, work: Work, shift: usize) {
        let out = &mut self.out[shift..shift + self.length];
        let state = self.state[shift..].first_chunk_mut().expect("room for a state");
        let done = match (work, side) {
            (Work::Words, Side::Plain) => {
                let (survey, site) = (&mut self.survey, &self.site);
                survey.load(site.units, &site.table, &site.levels).is_ok()
                    && survey.run(u16::MAX).is_ok()
                    && survey.report(out).is_ok()
            }
            (Work::Words, Side::Proved) => called(&PROVED, &self.site, state, out),
            (Work::Words, Side::PlainOnWords) => called(&PLAIN, &self.site, state, out),
            (Work::Bytes, Side::Proved) => (PROVED.report)(&self.file, out) as usize == self.length,
            (Work::Bytes, _) => report_of_file(&self.file, out) == self.length,
        };
        assert!(done, "a call was refused");
    }

    /// All ways give one report: what is compared does the same work.
    pub fn check(&mut self) {
        self.once(Side::Plain, Work::Words, 0);
        let expected = self.out[..self.length].to_vec();
        for (side, work) in [
            (Side::Proved, Work::Words),
            (Side::PlainOnWords, Work::Words),
            (Side::Proved, Work::Bytes),
            (Side::Plain, Work::Bytes),
        ] {
            self.out.fill(0);
            self.once(side, work, 0);
            assert!(self.out[..self.length] == expected, "the reports differ");
        }
    }

    /// The rounds that its survey takes.
    pub fn rounds(&mut self) -> u16 {
        self.once(Side::Plain, Work::Words, 0);
        self.survey.rounds
    }
}

fn called(calls: &Calls, site: &Site, state: &mut State, out: &mut [u8]) -> bool {
    (calls.load)(state, site.units, &site.table, &site.levels) == 0
        && (calls.run)(state, u16::MAX, &mut 0) == 0
        && (calls.state_report)(state, out) == 0
}
