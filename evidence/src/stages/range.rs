//! Stage 7, least and greatest over all descendants, by segments whose length doubles.

use super::off_tree;
use crate::{ABSENT, MAX_NUMBER, Survey, lg};

impl Survey {
    /// The first round: the local values of each place begin the segments, and those of its last descendant's place
    /// begin each unit.
    pub(super) fn range_first(&mut self) -> bool {
        let n = self.n();
        let (low, high) = self.local();
        self.begin_segments(&low, &high);
        for v in 0..n {
            let end = self.pre[v] + self.nd[v];
            let last = usize::from(end.wrapping_sub(1));
            (self.low[v], self.high[v]) = self.segment(last);
            self.little[v] = self.pre[v];
            self.big[v] = end.saturating_sub(1).min(MAX_NUMBER);
        }
        lg(self.units) == 0
    }

    /// For each unit the least and the greatest of its own place and of the places that links off the tree join to it.
    fn local(&self) -> ([u16; 256], [u16; 256]) {
        let (mut low, mut high) = (self.pre, self.pre);
        for &link in self.pairs() {
            if off_tree(&self.parent, link) {
                let [a, b] = link.map(usize::from);
                low[a] = low[a].min(self.pre[b]);
                low[b] = low[b].min(self.pre[a]);
                high[a] = high[a].max(self.pre[b]);
                high[b] = high[b].max(self.pre[a]);
            }
        }
        (low, high)
    }

    /// A place without a unit has 0 and 0; of two units at one place the least gives the values (W6).
    fn begin_segments(&mut self, low: &[u16; 256], high: &[u16; 256]) {
        let n = self.n();
        self.global_low[..n].fill(0);
        self.global_high[..n].fill(0);
        for v in (0..n).rev() {
            let place = usize::from(self.pre[v]);
            if place < n {
                self.global_low[place] = low[v];
                self.global_high[place] = high[v];
            }
        }
    }

    /// The values of the segment that begins at a place, 0 where that is no place.
    fn segment(&self, place: usize) -> (u16, u16) {
        if place < self.n() { (self.global_low[place], self.global_high[place]) } else { (0, 0) }
    }

    /// Round i = made − 1, on segments of 2 to the power i places.
    pub(super) fn range_later(&mut self) -> bool {
        let n = self.n();
        let length = 1u16 << (self.made - 1);
        let odd = |place: u16| place & (2 * length - 1) != 0;
        for v in 0..n {
            let (little, big) = (self.little[v], self.big[v]);
            if little < big {
                if odd(little) {
                    self.take_in(v, usize::from(little));
                    self.little[v] = (little + length).min(MAX_NUMBER);
                }
                if odd(big) {
                    // before place 0 there is no segment: absent is no place
                    self.take_in(v, usize::from(big.checked_sub(length).unwrap_or(ABSENT)));
                    self.big[v] = big.saturating_sub(length);
                }
            }
        }
        let length = usize::from(length);
        for place in (0..n.saturating_sub(length)).step_by(2 * length) {
            self.global_low[place] = self.global_low[place].min(self.global_low[place + length]);
            self.global_high[place] = self.global_high[place].max(self.global_high[place + length]);
        }
        self.made == lg(self.units)
    }

    fn take_in(&mut self, v: usize, place: usize) {
        let (low, high) = self.segment(place);
        self.low[v] = self.low[v].min(low);
        self.high[v] = self.high[v].max(high);
    }
}
