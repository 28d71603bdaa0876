//! Lifting order (document 02, T-07): built up from unit 0, each time the least unit that may stand next, and then
//! reversed.

use crate::{Refusal, Survey};

/// The most pairs "this before that".
pub const MAX_PAIRS: usize = 256;

/// 19: more than 256 pairs, an odd number of words, or a word that names no unit.
pub fn check_pairs(units: u16, pairs: &[u16]) -> Result<(), Refusal> {
    let bad = pairs.len() > 2 * MAX_PAIRS || pairs.len() % 2 == 1 || pairs.iter().any(|&unit| unit >= units);
    if bad { Err(Refusal::BadPairs) } else { Ok(()) }
}

/// The units in lifting order; none where there is no order. Of pairs that pass.
pub fn lifting_order(units: u16, links: &[[u16; 2]], pairs: &[[u16; 2]]) -> Option<Vec<u16>> {
    let mut standing = vec![false; usize::from(units)];
    let mut built = Vec::new();
    while built.len() < standing.len() {
        let next = (0..units).zip(may_stand(&standing, links, pairs)).find(|&(_, may)| may)?.0;
        standing[usize::from(next)] = true;
        built.push(next);
    }
    built.reverse();
    Some(built)
}

/// Which units may stand next: first unit 0 alone, then one that is linked with a standing unit. It is lifted after the
/// units that are built later, so whatever it is to be lifted before stands already.
fn may_stand(standing: &[bool], links: &[[u16; 2]], pairs: &[[u16; 2]]) -> Vec<bool> {
    let mut may = vec![false; standing.len()];
    may[0] = true;
    for link in links {
        let [a, b] = link.map(usize::from);
        may[a] |= standing[b];
        may[b] |= standing[a];
    }
    for pair in pairs {
        let [before, after] = pair.map(usize::from);
        may[before] &= standing[after];
    }
    may.iter().zip(standing).map(|(&may, &stands)| may && !stands).collect()
}

impl Survey {
    /// Returns the units written at the front of the slice. Refused with 10, 12, 14, 19, 20.
    pub fn lifting_order(&self, pairs: &[u16], out: &mut [u16]) -> Result<usize, Refusal> {
        self.must_be_finished()?;
        let out = out.get_mut(..self.n()).ok_or(Refusal::TooShort)?;
        check_pairs(self.units, pairs)?;
        let order = lifting_order(self.units, self.pairs(), pairs.as_chunks().0).ok_or(Refusal::NoOrder)?;
        out.copy_from_slice(&order);
        Ok(order.len())
    }
}
