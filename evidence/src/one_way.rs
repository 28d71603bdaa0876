//! One-way links (document 02, T-11): the least number of each unit's strongly connected group by the min-label method
//! of document 000, section 6.1, without its two optimisations.

use crate::table::check_one_way;
use crate::{ABSENT, MAX_UNITS, Refusal};

type Labels = [u16; MAX_UNITS];

/// Returns the passes; the number of each unit goes to the front of the words. Refused with 4, 5, 6, 7, 8, 9, 14.
pub fn one_way(units: u16, table: &[u16], numbers: &mut [u16]) -> Result<u16, Refusal> {
    check_one_way(units, table)?;
    let numbers = numbers.get_mut(..usize::from(units)).ok_or(Refusal::TooShort)?;
    let mut left: Vec<[usize; 2]> = table.as_chunks::<2>().0.iter().map(|link| link.map(usize::from)).collect();
    numbers.fill(ABSENT);
    let mut passes = 0;
    while numbers.contains(&ABSENT) {
        passes += 1;
        let forward = forward_labels(&left);
        let backward = backward_labels(&left, &forward);
        for (v, number) in numbers.iter_mut().enumerate() {
            // a unit that has its number takes no further part
            if *number == ABSENT && forward[v] == backward[v] {
                *number = forward[v];
            }
        }
        left.retain(|&[a, b]| {
            forward[a] == forward[b] && backward[a] == backward[b] && numbers[a] == ABSENT && numbers[b] == ABSENT
        });
    }
    Ok(passes)
}

/// Every unit begins with its own number, and hands on the least that it has heard.
fn forward_labels(links: &[[usize; 2]]) -> Labels {
    let mut least: Labels = std::array::from_fn(|v| v as u16);
    spread(&mut least, links.iter().copied());
    least
}

/// Only the units that their forward label names begin; the labels go against the links.
fn backward_labels(links: &[[usize; 2]], forward: &Labels) -> Labels {
    let mut least: Labels = std::array::from_fn(|v| if usize::from(forward[v]) == v { v as u16 } else { ABSENT });
    spread(&mut least, links.iter().map(|&[a, b]| [b, a]));
    least
}

fn spread(least: &mut Labels, links: impl Iterator<Item = [usize; 2]> + Clone) {
    loop {
        let mut fell = false;
        for [a, b] in links.clone() {
            if least[a] < least[b] {
                least[b] = least[a];
                fell = true;
            }
        }
        if !fell {
            return;
        }
    }
}
