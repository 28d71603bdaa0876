//! Cases without a state: one-way links, and live tables opened, changed and spoilt.

use super::Search;
use super::calls::{LEVEL_MARGIN, WORD_MARGIN, agree};
use super::cases::{found, words};
use super::lent::Lent;
use crate::damage::{odd_level, odd_word, spoil_site};
use crate::random::Random;
use crate::sites::{Site, any_one_way, any_site, some_level};
use crate::words::{Calls, PLAIN};
use crate::{ABSENT, LIVE_WORDS, LOWEST_LEVEL, MAX_LINKS, MAX_UNITS, word_of_level};

/// A step with a live table.
#[derive(Debug)]
enum Change {
    Open(Site),
    Add { a: u16, b: u16, level: i16 },
    Withdraw { a: u16, b: u16 },
}

impl Change {
    fn name(&self) -> &'static str {
        match self {
            Change::Open(_) => "live_open",
            Change::Add { .. } => "live_add",
            Change::Withdraw { .. } => "live_withdraw",
        }
    }
}

/// Where the ends, the levels and the counts of a live table begin.
const ENDS: usize = 2;
const LEVELS: usize = ENDS + 2 * MAX_LINKS;
const COUNTS: usize = LEVELS + MAX_LINKS;

fn changed(library: &Calls, live: &mut Lent<u16>, change: &Change) -> Result<u32, String> {
    let number = match change {
        Change::Open(site) => {
            let mut table = Lent::new(&site.table, WORD_MARGIN);
            let mut levels = Lent::new(&site.levels, LEVEL_MARGIN);
            let proved = (library.live_open)(live.proved_array(), site.units, table.proved(), levels.proved());
            let plain = (PLAIN.live_open)(live.plain_array(), site.units, table.plain(), levels.plain());
            let number = agree(proved, plain)?;
            table.difference("table")?;
            levels.difference("levels")?;
            number
        }
        Change::Add { a, b, level } => {
            let proved = (library.live_add)(live.proved_array(), *a, *b, *level);
            agree(proved, (PLAIN.live_add)(live.plain_array(), *a, *b, *level))?
        }
        Change::Withdraw { a, b } => {
            let proved = (library.live_withdraw)(live.proved_array(), *a, *b);
            agree(proved, (PLAIN.live_withdraw)(live.plain_array(), *a, *b))?
        }
    };
    live.difference("live")?;
    Ok(number)
}

/// A unit, or a number near the last one.
fn unit(random: &mut Random, units: u16) -> u16 {
    if random.once_in(10) {
        odd_word(random, units, units)
    } else {
        random.below(usize::from(units).clamp(1, MAX_UNITS)) as u16
    }
}

fn any_change(random: &mut Random, live: &[u16]) -> Change {
    let (units, links) = (live[0], usize::from(live[1]).min(MAX_LINKS));
    // the two units of a link, in either order
    let mut ends = [unit(random, units), unit(random, units)];
    if links > 0 && random.once_in(3) {
        let j = random.below(links);
        ends = [live[ENDS + 2 * j], live[ENDS + 2 * j + 1]];
        random.shuffle(&mut ends);
    }
    let [a, b] = ends;
    match random.below(10) {
        0 => Change::Open(given_site(random)),
        1..=5 => {
            let level = if random.once_in(8) { odd_level(random) } else { some_level(random) };
            Change::Add { a, b, level }
        }
        _ => Change::Withdraw { a, b },
    }
}

fn given_site(random: &mut Random) -> Site {
    let mut site = any_site(random);
    if random.once_in(2) {
        spoil_site(random, &mut site);
    }
    site
}

/// A word changed by hand: a count of the table, an end, a level, a stored number, those past the links and units among
/// them.
fn spoil_live(random: &mut Random, live: &mut Lent<u16>) {
    let (units, links) = (live.before()[0], live.before()[1]);
    let (n, m) = (usize::from(units).clamp(1, MAX_UNITS), usize::from(links).clamp(1, MAX_LINKS));
    let at = match random.below(12) {
        0 => 0,
        1 => 1,
        2..=3 => ENDS + random.below(2 * m),
        4..=5 => LEVELS + random.below(m),
        6..=7 => COUNTS + random.below(n),
        8 => ENDS + random.below(2 * MAX_LINKS),
        9 => LEVELS + random.below(MAX_LINKS),
        10 => COUNTS + random.below(MAX_UNITS),
        _ => random.below(LIVE_WORDS),
    };
    let value = match random.below(6) {
        0 => live.before()[at].wrapping_add(1),
        1 => live.before()[at].wrapping_sub(1),
        2 => random.below(n) as u16,
        3 if (LEVELS..COUNTS).contains(&at) => word_of_level(odd_level(random)),
        _ => odd_word(random, units, links),
    };
    live.set(at, value);
}

impl Search {
    /// A table read as ordered pairs, right or faulty, into words that are enough, more or too few.
    pub(super) fn one_way(&mut self, random: &mut Random) -> Result<(), String> {
        let (units, table) = any_one_way(random);
        let mut site = Site { units, levels: vec![LOWEST_LEVEL; table.len() / 2], table };
        let faulty = random.once_in(3);
        if faulty {
            spoil_site(random, &mut site);
        }
        self.tally.kind(if faulty { "faulty table of one-way links" } else { "table of one-way links" });
        let mut table = Lent::new(&site.table, WORD_MARGIN);
        let mut numbers = Lent::new(&words(random, usize::from(site.units).min(MAX_UNITS + 1)), WORD_MARGIN);
        let mut passes = Lent::new(&[random.word()], WORD_MARGIN);
        let proved = (self.library.one_way)(site.units, table.proved(), numbers.proved(), &mut passes.proved()[0]);
        let plain = (PLAIN.one_way)(site.units, table.plain(), numbers.plain(), &mut passes.plain()[0]);
        let all = agree(proved, plain).and_then(|number| {
            table.difference("table")?;
            numbers.difference("numbers")?;
            passes.difference("passes")?;
            Ok(number)
        });
        let number = all.map_err(|difference| {
            found(&format!("one-way links, {} words", numbers.before().len()), &format!("{site:?}"), &difference)
        })?;
        self.tally.number("one_way", number);
        if number == 0 {
            self.tally.reply(match passes.plain()[0] {
                1 => "one pass",
                2..=9 => "2 to 9 passes",
                10..=99 => "10 to 99 passes",
                _ => "100 passes or more",
            });
        }
        Ok(())
    }

    /// A list of changes of a live table, with words changed by hand between them.
    pub(super) fn live(&mut self, random: &mut Random) -> Result<(), String> {
        let mut words = [0; LIVE_WORDS];
        match random.below(12) {
            0 => {
                self.tally.kind("live table of random words");
                words = std::array::from_fn(|_| random.word());
            }
            1 => {
                self.tally.kind("live table of one word");
                words = [random.pick(&[0, 1, ABSENT]); LIVE_WORDS];
            }
            _ => {
                self.tally.kind("live table");
                let site = any_site(random);
                (PLAIN.live_open)(&mut words, site.units, &site.table, &site.levels);
            }
        }
        let mut live = Lent::new(&words, WORD_MARGIN);
        let often = random.pick(&[2, 6, 1000]);
        for _ in 0..random.between(1, 12) {
            if random.once_in(often) {
                spoil_live(random, &mut live);
            }
            let change = any_change(random, live.before());
            let number = changed(&self.library, &mut live, &change).map_err(|difference| {
                found(&format!("{change:?}"), &format!("live table {:?}", live.before()), &difference)
            })?;
            self.tally.number(change.name(), number);
            live.go_on();
        }
        Ok(())
    }
}
