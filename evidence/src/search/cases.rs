//! The cases: what is lent and which calls are made.

use super::Search;
use super::calls::{Call, both, both_read, both_report, both_write, lent_state};
use super::lent::Lent;
use super::questions::{any_question, doubtful, lifting_order, ring};
use crate::damage::{any_file, any_words, spoil_parents, spoil_site};
use crate::random::Random;
use crate::sites::{Site, any_parents, any_site};
use crate::states::{any_kept, loaded};
use crate::{FOREMAN_LINE, SERVICE_LINE, Survey, file_length, read_file, report_length, report_of_file};

/// The place of the stage among the words of a state.
const STAGE: usize = 2050;

/// Room for the longest report.
const MOST: usize = 21_274;

/// A slice as long as its contents need, longer, or too short.
pub fn some_length(random: &mut Random, needed: usize) -> usize {
    match random.below(16) {
        0 => 0,
        1 => needed.saturating_sub(1),
        2 => random.below(needed + 1),
        3..=5 => needed + random.below(40),
        _ => needed,
    }
}

/// An array with anything in it, for a reply.
fn reply<const WORDS: usize>(random: &mut Random) -> [u16; WORDS] {
    std::array::from_fn(|_| random.word())
}

fn bytes(random: &mut Random, length: usize) -> Vec<u8> {
    (0..length).map(|_| random.word() as u8).collect()
}

/// Places for a handset's line.
fn line(random: &mut Random, needed: usize) -> Vec<u8> {
    let length = some_length(random, needed);
    bytes(random, length)
}

/// Words with anything in them, as many as `some_length` says.
pub fn words(random: &mut Random, needed: usize) -> Vec<u16> {
    (0..some_length(random, needed)).map(|_| random.word()).collect()
}

/// Places for the levels of a file's links, with anything in them.
fn levels(random: &mut Random, needed: usize) -> Vec<i16> {
    (0..some_length(random, needed)).map(|_| random.word() as i16).collect()
}

fn budget(random: &mut Random) -> u16 {
    match random.below(16) {
        0 => 0,
        1 | 2 => 1,
        3..=9 => random.below(40) as u16,
        10..=12 => random.below(300) as u16,
        13 => random.below(900) as u16,
        14 => random.word(),
        _ => u16::MAX,
    }
}

/// A number that is below the count, mostly.
pub fn number(random: &mut Random, count: u16) -> u16 {
    match random.below(8) {
        0 => random.word(),
        1 => count,
        2 => count.wrapping_sub(1),
        _ => random.below(usize::from(count).max(1)) as u16,
    }
}

/// Any call but a load, with numbers that fit the state's counts, whatever these are.
fn any_call(random: &mut Random, state: &[u16]) -> Call {
    let (units, links) = (state[0], state[1]);
    match random.below(12) {
        9 => ring(random, state),
        10 => lifting_order(random, state),
        11 => doubtful(random, state),
        0 => Call::Round,
        1 | 2 => Call::Run { budget: budget(random), made: random.word() },
        3 => Call::Status { reply: reply(random) },
        4 => Call::Unit { unit: number(random, units), reply: reply(random) },
        5 => Call::Link { position: number(random, links), reply: reply(random) },
        6 => Call::ForemanLine { out: line(random, FOREMAN_LINE) },
        7 => Call::ServiceLine { out: line(random, SERVICE_LINE) },
        _ => {
            let needed = report_length(usize::from(units), usize::from(links)).min(MOST);
            let length = some_length(random, needed);
            Call::Report { out: bytes(random, length) }
        }
    }
}

/// What a difference was found in: the call, and what it was lent.
pub fn found(call: &str, lent: &str, difference: &str) -> String {
    format!("{difference}\ncall: {call}\nlent: {lent}")
}

/// Any load of a site.
fn any_load(random: &mut Random, site: Site) -> Call {
    let Site { units, table, levels } = site;
    if units <= 300 && random.once_in(3) {
        let mut parents = any_parents(random, units, &table);
        if random.once_in(3) {
            spoil_parents(random, &mut parents);
        }
        return Call::LoadPlanned { units, table, levels, parents };
    }
    if random.once_in(2) { Call::LoadStored { units, table, levels } } else { Call::Load { units, table, levels } }
}

impl Search {
    /// Makes one call, and goes on from what it leaves.
    fn one_call(&mut self, state: &mut Lent<u16>, call: &Call) -> Result<(), String> {
        let (number, word) = both(&self.library, state, call)
            .map_err(|difference| found(&format!("{call:?}"), &format!("state {:?}", state.before()), &difference))?;
        self.tally.number(call.name(), number);
        match (call, number, word) {
            (Call::Round | Call::Run { .. }, 0, _) => self.tally.stage(state.before()[STAGE]),
            (Call::Ring { .. }, 0, Some(units)) => self.tally.reply(if units == 0 { "no ring" } else { "ring" }),
            (Call::Doubtful { .. }, 0, Some(verdict)) => {
                self.tally.reply(["never", "perhaps", "always"][usize::from(verdict)])
            }
            _ => {}
        }
        state.go_on();
        Ok(())
    }

    pub fn any_case(&mut self, random: &mut Random) -> Result<(), String> {
        match random.below(60) {
            0..=13 => self.file(random),
            14..=17 => self.read(random),
            18..=21 => self.write(random),
            22..=25 => self.load(random),
            26..=33 => self.state(random),
            34..=39 => self.list(random),
            40..=49 => self.questions(random),
            50..=53 => self.one_way(random),
            54..=58 => self.live(random),
            _ => self.seats(random),
        }
    }

    fn file(&mut self, random: &mut Random) -> Result<(), String> {
        let (kind, input) = any_file(random);
        self.tally.kind(kind);
        let needed = report_of_file(&input, &mut [0; MOST]);
        let length = some_length(random, needed);
        let out = bytes(random, length);
        let (written, printed) = both_report(&self.library, &input, &out).map_err(|difference| {
            found(&format!("report, out {out:?}"), &input.escape_ascii().to_string(), &difference)
        })?;
        let printed = &printed[..written as usize];
        match printed {
            [] => self.tally.number("report", 14),
            [b'1', b'E', high, low, ..] => {
                let digits = [*high, *low];
                let number = std::str::from_utf8(&digits).ok().and_then(|digits| u32::from_str_radix(digits, 16).ok());
                self.tally.number("report", number.unwrap_or(u32::MAX));
            }
            _ => self.tally.number("report", 0),
        }
        Ok(())
    }

    /// A file, whole or damaged, into words and levels that are enough, more or too few.
    fn read(&mut self, random: &mut Random) -> Result<(), String> {
        let (_, input) = any_file(random);
        self.tally.kind("file read");
        let read = read_file(&input, &mut [0; 2048], &mut [0; 1024]);
        let needed = read.map_or(random.below(1025), |contents| usize::from(contents.links));
        let (table, levels) = (words(random, 2 * needed), levels(random, needed));
        let (units, links) = (random.word(), random.word());
        let number = both_read(&self.library, &input, &table, &levels, units, links).map_err(|difference| {
            let call = format!("read, {} words, {} levels, units {units}, links {links}", table.len(), levels.len());
            found(&call, &input.escape_ascii().to_string(), &difference)
        })?;
        self.tally.number("read", number);
        Ok(())
    }

    /// A table, right or faulty, into bytes that are enough, more or too few.
    fn write(&mut self, random: &mut Random) -> Result<(), String> {
        let mut site = any_site(random);
        let faulty = random.once_in(2);
        if faulty {
            spoil_site(random, &mut site);
        }
        self.tally.kind(if faulty { "faulty table written" } else { "table written" });
        let length = some_length(random, file_length(site.links()));
        let out = bytes(random, length);
        let number = both_write(&self.library, site.units, &site.table, &site.levels, &out)
            .map_err(|difference| found(&format!("write, {length} bytes"), &format!("{site:?}"), &difference))?;
        self.tally.number("write", number);
        Ok(())
    }

    fn load(&mut self, random: &mut Random) -> Result<(), String> {
        let mut site = any_site(random);
        let faulty = random.once_in(2);
        if faulty {
            spoil_site(random, &mut site);
        }
        self.tally.kind(if faulty { "load of a faulty table" } else { "load of a table" });
        let (_, words) = any_words(random);
        self.one_call(&mut lent_state(&words), &any_load(random, site))
    }

    fn state(&mut self, random: &mut Random) -> Result<(), String> {
        let (kind, words) = any_words(random);
        self.tally.kind(kind);
        let call = any_call(random, &words[..]);
        self.one_call(&mut lent_state(&words), &call)
    }

    /// A list of calls, each on the state that the last one left, from a load or from any kept state.
    fn list(&mut self, random: &mut Random) -> Result<(), String> {
        let survey = match random.below(6) {
            0..=1 => {
                self.tally.kind("list of calls after a load");
                loaded(&any_site(random))
            }
            2 => {
                let (site, mut survey) = (any_site(random), Survey::new());
                let parents = any_parents(random, site.units, &site.table);
                match survey.load_planned(site.units, &site.table, &site.levels, &parents) {
                    Ok(()) => self.tally.kind("list of calls after a load with a plan"),
                    Err(_) => self.tally.kind("list of calls after a refused load"),
                }
                survey
            }
            _ => {
                self.tally.kind("list of calls after a kept state");
                any_kept(random)
            }
        };
        let mut state = lent_state(&survey.to_words());
        let calls = random.between(2, 24);
        for _ in 0..calls {
            let mut call = any_call(random, state.before());
            if random.once_in(60) {
                let site = any_site(random);
                call = any_load(random, site);
            }
            self.one_call(&mut state, &call)?;
        }
        Ok(())
    }

    /// Questions about rings, doubtful links and lifting orders to a state, mostly a finished one.
    fn questions(&mut self, random: &mut Random) -> Result<(), String> {
        let survey = if random.once_in(8) {
            self.tally.kind("questions to a kept state");
            any_kept(random)
        } else {
            let mut survey = loaded(&any_site(random));
            if random.once_in(4) {
                self.tally.kind("questions to a finished survey");
                survey.run(u16::MAX).map_err(|refusal| format!("{refusal:?}"))?;
            } else {
                // labels and tree play no part in the answers
                self.tally.kind("questions to a finished state that no load reaches");
                survey.stage = crate::FINISHED;
            }
            survey
        };
        let mut state = lent_state(&survey.to_words());
        for _ in 0..random.between(1, 6) {
            let call = any_question(random, state.before());
            self.one_call(&mut state, &call)?;
        }
        Ok(())
    }
}
