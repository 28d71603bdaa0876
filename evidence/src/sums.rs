//! Parts add up (document 02, T-14): for each label the units that its links touch, less one.

use crate::{Refusal, Survey};
use std::collections::{BTreeMap, BTreeSet};

/// The sum over all labels is the number of units less the number of groups.
#[derive(Clone, Debug, PartialEq, Eq)]
pub struct Sums {
    /// Each label, ascending, with the units that its links touch less one.
    pub parts: Vec<(u16, usize)>,
    pub groups: usize,
}

impl Survey {
    /// Refused with 10, 12.
    pub fn sums(&self) -> Result<Sums, Refusal> {
        self.must_be_finished()?;
        let mut touched: BTreeMap<u16, BTreeSet<u16>> = BTreeMap::new();
        for (link, &label) in self.pairs().iter().zip(&self.label) {
            touched.entry(label).or_default().extend(link);
        }
        let groups: BTreeSet<u16> = self.color[..self.n()].iter().copied().collect();
        let parts = touched.into_iter().map(|(label, units)| (label, units.len() - 1)).collect();
        Ok(Sums { parts, groups: groups.len() })
    }
}
