//! Stages 8 to 10: joins, classes, labels. A tree link is named by its lower unit.

use super::components::{hear, said};
use super::{is_root, off_tree};
use crate::{ABSENT, Survey};

/// The unit that names a link: of a tree link its lower unit, off the tree the end with the greater place (W8).
fn naming_unit(parent: &[u16; 256], pre: &[u16; 256], [a, b]: [u16; 2]) -> u16 {
    let (below_a, below_b) = (parent[usize::from(b)] == a, parent[usize::from(a)] == b);
    match (below_a, below_b) {
        (true, true) => a.min(b),
        (true, false) => b,
        (false, true) => a,
        (false, false) if pre[usize::from(b)] < pre[usize::from(a)] => a,
        (false, false) => b,
    }
}

impl Survey {
    /// Stage 8: a link off the tree joins its ends where neither is the other's ancestor (T-05), and a unit its parent
    /// where case 3 says so.
    pub(super) fn aux_edges_round(&mut self) -> bool {
        for j in 0..usize::from(self.links) {
            let [a, b] = self.ends[j];
            let apart = off_tree(&self.parent, [a, b]) && !self.within(a, b) && !self.within(b, a);
            self.aux_links[j] = u16::from(apart);
        }
        for v in 0..self.n() {
            self.aux_parents[v] = u16::from(self.joins_parent(v));
        }
        true
    }

    /// Whether v's place is among those of u and its descendants.
    fn within(&self, u: u16, v: u16) -> bool {
        let (first, place) = (self.pre[usize::from(u)], self.pre[usize::from(v)]);
        first <= place && place - first < self.nd[usize::from(u)]
    }

    fn joins_parent(&self, v: usize) -> bool {
        let parent = self.parent[v];
        if parent == ABSENT || is_root(&self.parent, parent) {
            return false;
        }
        let p = usize::from(parent);
        self.low[v] < self.pre[p] || self.high[v] >= self.pre[p] + self.nd[p]
    }

    /// Stage 9: stage 1's rule over the joins. Roots take no part and stay absent (W7).
    pub(super) fn aux_color_round(&mut self) -> bool {
        let n = self.n();
        let said = said(&self.aux_color, n, self.made == 0);
        let mut new = said;
        for (&link, &join) in self.pairs().iter().zip(&self.aux_links) {
            if join != 0 && !link.iter().any(|&end| is_root(&self.parent, end)) {
                hear(&mut new, &said, link);
            }
        }
        for v in 0..n {
            let parent = self.parent[v];
            if parent == ABSENT {
                new[v] = ABSENT;
            } else if self.aux_parents[v] != 0 && !is_root(&self.parent, parent) {
                hear(&mut new, &said, [v as u16, parent]);
            }
        }
        let unchanged = self.made != 0 && new == self.aux_color;
        self.aux_color = new;
        unchanged
    }

    /// Stage 10, round one: each link's class.
    pub(super) fn class_round(&mut self) -> bool {
        for (class, &link) in self.class.iter_mut().zip(&self.ends[..usize::from(self.links)]) {
            *class = self.aux_color[usize::from(naming_unit(&self.parent, &self.pre, link))];
        }
        false
    }

    /// Round two: the label of a link is the least position in its class. Links of absent class form one class.
    pub(super) fn label_round(&mut self) -> bool {
        let m = self.m();
        let bucket = |class: u16| usize::from(class).min(256);
        let mut least = [ABSENT; 257];
        for (position, &class) in self.class[..m].iter().enumerate().rev() {
            least[bucket(class)] = position as u16;
        }
        for (label, &class) in self.label.iter_mut().zip(&self.class[..m]) {
            *label = least[bucket(class)];
        }
        true
    }
}
