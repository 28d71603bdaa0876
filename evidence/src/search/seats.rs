//! Cases of seats: lists of loads and ticks, with the turn and words of a seat changed by hand between them.

use super::Search;
use super::calls::{LEVEL_MARGIN, WORD_MARGIN, agree};
use super::cases::found;
use super::lent::Lent;
use crate::Survey;
use crate::damage::{spoil_parents, spoil_site, spoil_words};
use crate::random::Random;
use crate::seats::{FIRST_TURN, SEATS, SeatCalls, Seats};
use crate::sites::{any_parents, any_site};
use crate::states::{any_kept, reached};
use crate::words::{PLAIN, State};

fn seats_of(words: &mut [u16]) -> &mut Seats {
    words.as_chunks_mut().0.try_into().expect("the words of eight states")
}

/// Eight seats: empty ones, surveys on their way or at their end, now and then one with words changed.
fn any_seats(random: &mut Random) -> Vec<u16> {
    let (empty, damaged) = (random.between(1, 4), random.once_in(4));
    let mut words = vec![0; SEATS * Survey::WORDS];
    for seat in words.as_chunks_mut::<{ Survey::WORDS }>().0 {
        if random.once_in(empty) {
            continue;
        }
        let survey = if random.once_in(8) { any_kept(random) } else { reached(random) };
        survey.write_words(seat);
        if damaged && random.once_in(6) {
            spoil_words(random, seat);
        }
    }
    words
}

impl Search {
    pub(super) fn seats(&mut self, random: &mut Random) -> Result<(), String> {
        self.tally.kind("seats");
        let first = if random.once_in(2) { FIRST_TURN } else { random.below(SEATS) as u16 };
        let mut seats = Lent::new(&any_seats(random), WORD_MARGIN);
        let mut last = Lent::new(&[first], WORD_MARGIN);
        for _ in 0..random.between(2, 24) {
            match random.below(40) {
                0 => last.set(0, if random.once_in(2) { random.word() } else { random.below(SEATS + 1) as u16 }),
                1 => {
                    let (seat, word) = (random.below(SEATS), random.pick(&[0, 1, 2, 2050, 2051]));
                    seats.set(seat * Survey::WORDS + word, random.below(12) as u16);
                }
                2..=9 => self.seat_load(random, &mut seats)?,
                _ => self.tick(&mut last, &mut seats)?,
            }
        }
        Ok(())
    }

    fn seat_load(&mut self, random: &mut Random, seats: &mut Lent<u16>) -> Result<(), String> {
        let mut site = any_site(random);
        if random.once_in(2) {
            spoil_site(random, &mut site);
        }
        let seat = if random.once_in(8) { random.word() } else { random.below(SEATS + 1) as u16 };
        let mut table = Lent::new(&site.table, WORD_MARGIN);
        let mut levels = Lent::new(&site.levels, LEVEL_MARGIN);
        let mut parents = any_parents(random, site.units, &site.table);
        if random.once_in(3) {
            spoil_parents(random, &mut parents);
        }
        let mut parents = Lent::new(&parents, WORD_MARGIN);
        let name = random.pick(&["seat_load", "seat_load_stored", "seat_load_planned"]);
        let load = |calls: &SeatCalls, seats: &mut Seats, table: &[u16], levels: &[i16], parents: &[u16]| match name {
            "seat_load" => (calls.load)(seats, seat, site.units, table, levels),
            "seat_load_stored" => (calls.load_stored)(seats, seat, site.units, table, levels),
            _ => (calls.load_planned)(seats, seat, site.units, table, levels, parents),
        };
        let proved =
            load(&self.library.seats, seats_of(seats.proved()), table.proved(), levels.proved(), parents.proved());
        let plain = load(&PLAIN.seats, seats_of(seats.plain()), table.plain(), levels.plain(), parents.plain());
        let all = agree(proved, plain).and_then(|number| {
            table.difference("table")?;
            levels.difference("levels")?;
            parents.difference("parents")?;
            seats.difference("seats")?;
            Ok(number)
        });
        let number =
            all.map_err(|difference| found(&format!("{name}, seat {seat}"), &format!("{site:?}"), &difference))?;
        self.tally.number(name, number);
        seats.go_on();
        Ok(())
    }

    fn tick(&mut self, last: &mut Lent<u16>, seats: &mut Lent<u16>) -> Result<(), String> {
        let proved = (self.library.seats.tick)(&mut last.proved()[0], seats_of(seats.proved()));
        let plain = (PLAIN.seats.tick)(&mut last.plain()[0], seats_of(seats.plain()));
        let all = agree(proved, plain).and_then(|number| {
            last.difference("last")?;
            seats.difference("seats")?;
            Ok(number)
        });
        let number = all.map_err(|difference| {
            let counts = |seat: &State| format!("{} units, {} links, stage {}", seat[0], seat[1], seat[2050]);
            let seats: Vec<String> = seats.before().as_chunks().0.iter().map(counts).collect();
            found(&format!("tick, last served {}", last.before()[0]), &seats.join("; "), &difference)
        })?;
        self.tally.number("tick", number);
        last.go_on();
        seats.go_on();
        Ok(())
    }
}
