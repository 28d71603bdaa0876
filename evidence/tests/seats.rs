//! Seats (document 02, T-12): the plain version against the vectors of `check_seats`; and, with the feature `face`, a
//! search for differences between it and the proved library, every word and the turn compared after each call.

mod streams;

use plain::seats::{FIRST_TURN, PLAIN, SEATS, Seats, empty_seats};
use plain::words::status;
use std::fmt::Write;
use streams::{Numbers, vectors};

/// Where a state has its stage.
const STAGE: usize = 2050;

/// A seat's status in the line, nothing where it is refused.
fn say(seats: &Seats, seat: usize, line: &mut String) {
    let mut reply = [0; 4];
    if status(&seats[seat], &mut reply) == 0 {
        reply.iter().for_each(|word| write!(line, " {word}").unwrap());
    }
    line.push('\n');
}

/// The lines of a case.
fn case(numbers: &mut Numbers, lines: &mut String) {
    let mut seats = empty_seats();
    let mut last = FIRST_TURN;
    for _ in 0..numbers.next::<usize>() {
        match numbers.next::<u8>() {
            1 => {
                let (seat, site) = (numbers.next(), numbers.site());
                writeln!(lines, "{}", (PLAIN.load)(&mut seats, seat, site.units, &site.table, &site.levels)).unwrap();
            }
            2 => match (PLAIN.tick)(&mut last, &mut seats) {
                0 => {
                    write!(lines, "0 {last}").unwrap();
                    say(&seats, usize::from(last), lines);
                }
                number => writeln!(lines, "{number}").unwrap(),
            },
            3 => last = numbers.next(),
            _ => {
                let seat: usize = numbers.next();
                seats[seat][STAGE] = numbers.next();
            }
        }
    }
    for seat in 0..SEATS {
        if seats[seat][0] == 0 && seats[seat][STAGE] == 0 {
            lines.push_str("0\n");
        } else {
            lines.push('1');
            say(&seats, seat, lines);
        }
    }
}

#[test]
fn seat_vectors() {
    vectors("seats").hold(|_, numbers, lines| case(numbers, lines));
}

#[cfg(feature = "face")]
mod search {
    use super::*;
    use plain::face::PROVED_SEATS;
    use plain::random::Random;
    use plain::seats::SeatCalls;
    use plain::sites::any_site;

    /// Lists of loads, ticks and words overwritten, from eight empty seats; how often each number came up.
    fn compare(proved: SeatCalls, seed: u64, cases: u64) -> [usize; 24] {
        let mut numbers = [0; 24];
        for case in 0..cases {
            let random = &mut Random::new(seed, case);
            let (mut ours, mut theirs) = (empty_seats(), empty_seats());
            let (mut last, mut turn) = (FIRST_TURN, FIRST_TURN);
            let mut seats_used = random.between(1, SEATS);
            for _ in 0..random.between(20, 200) {
                let number = match random.below(40) {
                    0..4 => {
                        let mut site = any_site(random);
                        if random.once_in(8) {
                            site.levels.pop();
                        }
                        let seat = if random.once_in(10) { random.word() } else { random.below(seats_used) as u16 };
                        let number = (PLAIN.load)(&mut ours, seat, site.units, &site.table, &site.levels);
                        assert_eq!(
                            (proved.load)(&mut theirs, seat, site.units, &site.table, &site.levels),
                            number,
                            "case {case}"
                        );
                        number
                    }
                    4 if random.once_in(4) => {
                        let any = if random.once_in(2) { random.word() } else { random.below(SEATS) as u16 };
                        (last, turn) = (any, any);
                        continue;
                    }
                    5 if random.once_in(8) => {
                        let (seat, at) = (random.below(SEATS), random.pick(&[0, STAGE, STAGE + 1, 2]));
                        let any = if random.once_in(2) { random.word() } else { random.below(12) as u16 };
                        (ours[seat][at], theirs[seat][at]) = (any, any);
                        continue;
                    }
                    6 => {
                        seats_used = SEATS;
                        continue;
                    }
                    _ => {
                        let number = (PLAIN.tick)(&mut last, &mut ours);
                        assert_eq!((proved.tick)(&mut turn, &mut theirs), number, "case {case}");
                        number
                    }
                };
                numbers[number as usize] += 1;
                assert_eq!(turn, last, "case {case}");
                assert!(ours == theirs, "case {case}: words differ after {number}");
            }
        }
        numbers
    }

    #[test]
    fn seats_and_the_turn() {
        let numbers = compare(PROVED_SEATS, 12, 2000);
        println!("{numbers:?}");
        for number in [0, 10, 11, 15, 23] {
            assert!(numbers[number] > 100, "{number} came up {} times", numbers[number]);
        }
    }
}
