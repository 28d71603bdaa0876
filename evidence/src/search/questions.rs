//! Calls that ask a state about rings, lifting orders and doubtful links, with numbers that fit the state's counts,
//! whatever these are.

use super::calls::Call;
use super::cases::{number, some_length, words};
use crate::random::Random;
use crate::{MAX_LINKS, MAX_PAIRS, MAX_UNITS};

pub fn any_question(random: &mut Random, state: &[u16]) -> Call {
    match random.below(3) {
        0 => ring(random, state),
        1 => lifting_order(random, state),
        _ => doubtful(random, state),
    }
}

/// Two positions that exist, mostly; at times the same twice.
fn positions(random: &mut Random, links: u16) -> (u16, u16) {
    let mut one =
        || if random.once_in(16) { number(random, links) } else { random.below(usize::from(links).max(1)) as u16 };
    let (first, second) = (one(), one());
    if random.once_in(6) { (first, first) } else { (first, second) }
}

/// Words for the units of a ring or of an order.
fn for_units(random: &mut Random, state: &[u16]) -> Vec<u16> {
    words(random, usize::from(state[0]).min(MAX_UNITS))
}

pub fn ring(random: &mut Random, state: &[u16]) -> Call {
    let (first, second) = positions(random, state[1]);
    Call::Ring { first, second, out: for_units(random, state), count: random.word() }
}

pub fn lifting_order(random: &mut Random, state: &[u16]) -> Call {
    Call::LiftingOrder { pairs: any_pairs(random, state), out: for_units(random, state) }
}

/// Pairs that some order keeps, mostly, up to as many as may be; else with a fault or a circle.
fn any_pairs(random: &mut Random, state: &[u16]) -> Vec<u16> {
    let units = usize::from(state[0]);
    if units == 0 || units > MAX_UNITS {
        return (0..random.below(20)).map(|_| random.word()).collect();
    }
    let links = usize::from(state[1]).min(MAX_LINKS);
    let grown = growth(random, units, &state[2..2 + 2 * links]);
    let count = match random.below(12) {
        _ if units == 1 => 0,
        0 => MAX_PAIRS,
        1 => MAX_PAIRS + 1,
        2 => random.between(MAX_PAIRS - 2, MAX_PAIRS + 40),
        3..=5 => 0,
        _ => random.below((2 * units).min(MAX_PAIRS)),
    };
    let mut pairs: Vec<[u16; 2]> = (0..count).map(|_| kept_pair(random, &grown)).collect();
    let unit = |random: &mut Random| random.below(units) as u16;
    match random.below(16) {
        0 => pairs.push([unit(random), unit(random)]),
        1 => pairs.push([unit(random); 2]),
        2 => pairs.push([0, unit(random)]),
        3 if count > 0 => {
            let at = random.below(count);
            pairs[at].reverse();
        }
        4 if count > 0 => {
            let again = random.pick(&pairs);
            pairs.push(again);
        }
        5 if count > 0 => {
            let (at, end) = (random.below(count), random.below(2));
            pairs[at][end] = number(random, units as u16);
        }
        _ => {}
    }
    random.shuffle(&mut pairs);
    let mut words = pairs.concat();
    match random.below(24) {
        0 => words.push(unit(random)),
        1 => drop(words.pop()),
        _ => {}
    }
    words
}

/// "The later of the two before the earlier", by an order in which the units may come to stand.
fn kept_pair(random: &mut Random, grown: &[u16]) -> [u16; 2] {
    let later = random.between(1, grown.len() - 1);
    [grown[later], grown[random.below(later)]]
}

/// The units from 0 on, each linked with one before it where that can be.
fn growth(random: &mut Random, units: usize, table: &[u16]) -> Vec<u16> {
    let mut links: Vec<[u16; 2]> = table.as_chunks().0.to_vec();
    links.retain(|link| link.iter().all(|&end| usize::from(end) < units));
    random.shuffle(&mut links);
    let (mut grown, mut stands) = (vec![0], vec![false; units]);
    stands[0] = true;
    while grown.len() < units {
        let ways = links.iter().flat_map(|&[a, b]| [(a, b), (b, a)]);
        let linked = ways.filter(|&(a, b)| stands[usize::from(a)] && !stands[usize::from(b)]).map(|(_, b)| b);
        let next = match linked.take(random.between(1, 4)).last() {
            Some(unit) => unit,
            None => (0..units).find(|&v| !stands[v]).unwrap_or(0) as u16,
        };
        stands[usize::from(next)] = true;
        grown.push(next);
    }
    grown
}

pub fn doubtful(random: &mut Random, state: &[u16]) -> Call {
    let (first, second) = positions(random, state[1]);
    let links = usize::from(state[1]).min(MAX_LINKS + 1);
    let length = if random.once_in(4) { some_length(random, links) } else { links };
    let (often, mark) = (random.between(1, 12), random.between(1, 255) as u8);
    let kind = random.below(6);
    let mut any = || match kind {
        0 => 0,
        1 => random.word() as u8,
        2 => mark,
        _ if random.once_in(often) => random.pick(&[1, 2, 128, 255, mark]),
        _ => 0,
    };
    let mut marks: Vec<u8> = (0..length).map(|_| any()).collect();
    // the two themselves are sure, mostly
    for position in [first, second] {
        if let Some(mark) = marks.get_mut(usize::from(position)).filter(|_| !random.once_in(4)) {
            *mark = 0;
        }
    }
    Call::Doubtful { first, second, marks, verdict: random.word() }
}
