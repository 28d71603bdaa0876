//! Stage 2, tree: breadth first from the units that equal their colour, along the links with the highest levels (T-02).

use crate::{ABSENT, Survey, level_of_word};
use std::cmp::Reverse;

impl Survey {
    /// Ends with the first round that visits none.
    pub(super) fn tree_round(&mut self) -> bool {
        if self.given != 0 {
            self.take_over();
            return true;
        }
        let visited = if self.made == 0 { self.visit_roots() } else { self.visit_neighbours() };
        !visited
    }

    /// The planner's tree (T-05): a distance is the steps up to the unit that the colour names, absent where the chain
    /// never gets there.
    fn take_over(&mut self) {
        for v in 0..self.n() {
            self.parent[v] = self.plan[v];
            self.dist[v] = self.steps(v as u16, self.color[v]);
        }
    }

    fn steps(&self, from: u16, to: u16) -> u16 {
        let mut at = from;
        for far in 0..self.units {
            if at == to {
                return far;
            }
            at = match self.plan[usize::from(at)] {
                ABSENT => return ABSENT,
                parent => parent,
            };
        }
        ABSENT
    }

    fn visit_roots(&mut self) -> bool {
        let mut visited = false;
        for v in 0..self.n() {
            if usize::from(self.color[v]) == v {
                self.dist[v] = 0;
                self.parent[v] = ABSENT;
                visited = true;
            }
        }
        visited
    }

    /// An unvisited unit takes, of its neighbours that the round before visited (W2), the one with the highest level,
    /// ties to the least number.
    fn visit_neighbours(&mut self) -> bool {
        let before = self.made - 1;
        let mut chosen = [(Reverse(i16::MIN), ABSENT); 256];
        for (&[a, b], &word) in self.pairs().iter().zip(&self.levels) {
            let level = Reverse(level_of_word(word));
            let (i, j) = (usize::from(a), usize::from(b));
            let (from, to) = (self.dist[i], self.dist[j]);
            if from == before && to == ABSENT {
                chosen[j] = chosen[j].min((level, a));
            }
            if to == before && from == ABSENT {
                chosen[i] = chosen[i].min((level, b));
            }
        }
        let mut visited = false;
        for (v, &(_, parent)) in chosen.iter().enumerate() {
            if parent != ABSENT {
                self.parent[v] = parent;
                self.dist[v] = self.made;
                visited = true;
            }
        }
        visited
    }
}
