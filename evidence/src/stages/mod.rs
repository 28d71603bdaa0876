//! The ten stages. Each round reads the values that the round before left, and says whether its stage's own rule ends
//! it.

mod blocks;
mod components;
mod range;
mod ranking;
mod tour;
mod tree;

use crate::{ABSENT, Survey, ceiling};

/// What a round tells the clock.
pub(crate) struct Round {
    pub last: bool,
    pub requests: u16,
}

/// Neither end is the other's parent (W1).
fn off_tree(parent: &[u16; 256], [a, b]: [u16; 2]) -> bool {
    parent[usize::from(a)] != b && parent[usize::from(b)] != a
}

fn is_root(parent: &[u16; 256], v: u16) -> bool {
    parent[usize::from(v)] == ABSENT
}

impl Survey {
    /// One round of a kept state that is not finished.
    pub(crate) fn step(&mut self) {
        let last = |last| Round { last, requests: 0 };
        let first = self.made == 0;
        let round = match self.stage {
            1 => last(self.color_round()),
            2 => last(self.tree_round()),
            3 if first => last(self.next_round()),
            3 => last(self.pred_round()),
            4 => self.first_ranking_round(),
            5 if first => last(self.forward_round()),
            5 => last(self.descendants_round()),
            6 => self.second_ranking_round(),
            7 if first => last(self.range_first()),
            7 => last(self.range_later()),
            8 => last(self.aux_edges_round()),
            9 => last(self.aux_color_round()),
            10 if first => last(self.class_round()),
            _ => last(self.label_round()),
        };
        self.tick(round);
    }

    /// This round is the last that the stage's ceiling allows.
    fn at_ceiling(&self) -> bool {
        self.made + 1 >= ceiling(self.units, self.stage)
    }

    fn tick(&mut self, round: Round) {
        if round.last || self.at_ceiling() {
            self.stage += 1;
            self.made = 0;
        } else {
            self.made += 1;
        }
        self.rounds = (self.rounds + 1).min(Survey::MAX_ROUNDS);
        self.requests = (self.requests + round.requests).min(Survey::MAX_REQUESTS);
    }
}
