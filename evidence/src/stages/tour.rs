//! Stage 3, tour: each tree's list of arcs, 2v into v from its parent and 2v + 1 out of v. The tree is what the parents
//! say (W1, W3).

use crate::survey::ARCS;
use crate::{ABSENT, Survey};

/// The children of each unit: the least, and after each child the next greater one; absent where there is none.
struct Children {
    least: [u16; 256],
    after: [u16; 256],
}

impl Children {
    fn of(parent: &[u16]) -> Children {
        let mut children = Children { least: [ABSENT; 256], after: [ABSENT; 256] };
        for (v, &p) in parent.iter().enumerate().rev() {
            if p != ABSENT {
                let least = &mut children.least[usize::from(p)];
                children.after[v] = *least;
                *least = v as u16;
            }
        }
        children
    }
}

impl Survey {
    /// Round one: each arc's follower.
    pub(super) fn next_round(&mut self) -> bool {
        let n = self.n();
        let children = Children::of(&self.parent[..n]);
        for v in 0..n {
            if self.parent[v] == ABSENT {
                self.next[2 * v] = ABSENT;
                self.next[2 * v + 1] = ABSENT;
            }
            // v's tree neighbours by number: its children, with its parent among them
            let (mut child, mut parent) = (children.least[v], self.parent[v]);
            let first = child.min(parent);
            let mut before = ABSENT;
            loop {
                let neighbour = child.min(parent);
                if neighbour == ABSENT {
                    break;
                }
                if child == neighbour {
                    child = children.after[usize::from(child)];
                }
                if parent == neighbour {
                    parent = ABSENT;
                }
                if before != ABSENT {
                    self.follow(before, v as u16, neighbour);
                }
                before = neighbour;
            }
            if before != ABSENT {
                self.follow(before, v as u16, first);
            }
        }
        false
    }

    /// After (u, v) comes (v, w). Two arcs go from u to v where each is the other's parent.
    fn follow(&mut self, u: u16, v: u16, w: u16) {
        let follower = if self.parent[usize::from(w)] == v { 2 * w } else { 2 * v + 1 };
        if self.parent[usize::from(v)] == u {
            self.next[2 * usize::from(v)] = follower;
        }
        if self.parent[usize::from(u)] == v {
            self.next[2 * usize::from(u) + 1] = follower;
        }
    }

    /// Round two: each arc's predecessor, the least arc that it follows; absent at the start of a list. Sets up the
    /// first ranking.
    pub(super) fn pred_round(&mut self) -> bool {
        let n = self.n();
        let children = Children::of(&self.parent[..n]);
        let mut pred = [ABSENT; ARCS];
        for (arc, &next) in self.next[..2 * n].iter().enumerate().rev() {
            if next != ABSENT {
                pred[usize::from(next)] = arc as u16;
            }
        }
        for v in 0..n {
            let parent = self.parent[v];
            if parent == ABSENT {
                pred[2 * v] = ABSENT;
                pred[2 * v + 1] = ABSENT;
            } else if super::is_root(&self.parent, parent) && usize::from(children.least[usize::from(parent)]) == v {
                pred[2 * v] = ABSENT;
            }
            let value = u16::from(parent != ABSENT);
            self.sum[2 * v] = value;
            self.sum[2 * v + 1] = value;
        }
        self.pred[..2 * n].copy_from_slice(&pred[..2 * n]);
        self.jump[..2 * n].copy_from_slice(&pred[..2 * n]);
        true
    }
}
