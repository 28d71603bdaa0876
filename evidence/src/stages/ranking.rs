//! Stages 4 to 6: the first ranking, the marks, and the second ranking with the places.

use super::Round;
use crate::{ABSENT, MAX_NUMBER, Survey};

/// A bucket for each colour, and one for absent, which compares as the greatest.
const COLORS: usize = 257;

fn bucket(color: u16) -> usize {
    usize::from(color).min(COLORS - 1)
}

impl Survey {
    pub(super) fn first_ranking_round(&mut self) -> Round {
        let requests = self.double();
        Round { last: requests == 0, requests }
    }

    /// Every arc with a working predecessor adds its sum and takes its predecessor. Returns the requests.
    fn double(&mut self) -> u16 {
        let (jump, sum) = (self.jump, self.sum);
        let mut requests = 0;
        for a in 0..2 * self.n() {
            if jump[a] != ABSENT {
                let before = usize::from(jump[a]);
                self.sum[a] = (sum[a] + sum[before]).min(MAX_NUMBER);
                self.jump[a] = jump[before];
                requests += 1;
            }
        }
        requests
    }

    /// Marks, round one: an arc is forward if its rank is below its reverse's.
    pub(super) fn forward_round(&mut self) -> bool {
        for v in 0..self.n() {
            let (into, out) = (self.sum[2 * v], self.sum[2 * v + 1]);
            let arc = self.parent[v] != ABSENT;
            self.forward[2 * v] = u16::from(arc && into < out);
            self.forward[2 * v + 1] = u16::from(arc && out < into);
        }
        false
    }

    /// Marks, round two: descendants. Sets up the second ranking.
    pub(super) fn descendants_round(&mut self) -> bool {
        let sizes = self.color_counts();
        for v in 0..self.n() {
            let (into, out) = (2 * v, 2 * v + 1);
            let root = self.parent[v] == ABSENT;
            self.nd[v] = if root {
                sizes[bucket(self.color[v])]
            } else {
                (self.sum[out] + 1).saturating_sub(self.sum[into]) / 2
            };
            for a in [into, out] {
                self.sum[a] = u16::from(!root && self.forward[a] != 0);
                self.jump[a] = self.pred[a];
            }
        }
        true
    }

    /// The last round writes the places from the sums that the round before left (W4).
    pub(super) fn second_ranking_round(&mut self) -> Round {
        let none = self.jump[..2 * self.n()].iter().all(|&jump| jump == ABSENT);
        if none || self.at_ceiling() {
            self.write_places();
        }
        self.first_ranking_round()
    }

    /// A place is the forward sum, 0 at a root, plus the number of units of smaller colour.
    fn write_places(&mut self) {
        let mut smaller = self.color_counts();
        let mut before = 0;
        for count in &mut smaller {
            before += std::mem::replace(count, before);
        }
        for v in 0..self.n() {
            let forward = if self.parent[v] == ABSENT { 0 } else { self.sum[2 * v] };
            self.pre[v] = (forward + smaller[bucket(self.color[v])]).min(MAX_NUMBER);
        }
    }

    /// How many units have each colour.
    fn color_counts(&self) -> [u16; COLORS] {
        let mut counts = [0; COLORS];
        for &color in &self.color[..self.n()] {
            counts[bucket(color)] += 1;
        }
        counts
    }
}
