//! Doubtful links (document 02, T-08). A ring of some links is a ring of more, so "in each setting" is "of the sure
//! links alone" and "in some" is "of all". Whether two links are on a ring is told here by the blocks of a search in
//! depth (Hopcroft and Tarjan), and not by the paths of T-04.

use crate::{Refusal, Survey};

/// The value of each is that of the reply.
#[derive(Clone, Copy, Debug, PartialEq, Eq)]
pub enum Verdict {
    Never = 0,
    Perhaps = 1,
    Always = 2,
}

const NONE: usize = usize::MAX;

/// The block of each link that counts: the links of a block are on rings with each other, and with no others. A block
/// of one link is on none. Also how many links each block has.
struct Blocks {
    of: Vec<usize>,
    sizes: Vec<usize>,
}

/// A unit on the way down, the link that led to it, and how many of its links were looked at.
struct Visit {
    unit: usize,
    by: usize,
    looked: usize,
}

impl Blocks {
    fn new(units: u16, links: &[[u16; 2]], counts: impl Fn(usize) -> bool) -> Blocks {
        let n = usize::from(units);
        let mut at: Vec<Vec<(usize, usize)>> = vec![Vec::new(); n];
        for (j, link) in links.iter().enumerate().filter(|&(j, _)| counts(j)) {
            let [a, b] = link.map(usize::from);
            at[a].push((b, j));
            at[b].push((a, j));
        }
        let mut blocks = Blocks { of: vec![NONE; links.len()], sizes: Vec::new() };
        let (mut entered, mut low, mut count) = (vec![NONE; n], vec![NONE; n], 0);
        for root in 0..n {
            if entered[root] != NONE {
                continue;
            }
            let mut way = vec![Visit { unit: root, by: NONE, looked: 0 }];
            let mut open: Vec<usize> = Vec::new();
            (entered[root], low[root]) = (count, count);
            count += 1;
            while let Some(Visit { unit, by, looked }) = way.last_mut() {
                let (v, by) = (*unit, *by);
                if let Some(&(to, j)) = at[v].get(*looked) {
                    *looked += 1;
                    if j == by {
                        continue;
                    }
                    if entered[to] == NONE {
                        open.push(j);
                        (entered[to], low[to]) = (count, count);
                        count += 1;
                        way.push(Visit { unit: to, by: j, looked: 0 });
                    } else if entered[to] < entered[v] {
                        open.push(j);
                        low[v] = low[v].min(entered[to]);
                    }
                    continue;
                }
                way.pop();
                if let Some(above) = way.last().map(|visit| visit.unit) {
                    low[above] = low[above].min(low[v]);
                    if low[v] >= entered[above] {
                        blocks.close(&mut open, by);
                    }
                }
            }
        }
        blocks
    }

    /// The links found since one, which is the last of them, are a block.
    fn close(&mut self, open: &mut Vec<usize>, first: usize) {
        let from = open.iter().rposition(|&j| j == first).expect("an open link");
        self.sizes.push(open.len() - from);
        for j in open.drain(from..) {
            self.of[j] = self.sizes.len() - 1;
        }
    }

    fn ringed(&self, first: usize, second: usize) -> bool {
        let block = self.of[first];
        block != NONE && block == self.of[second] && self.sizes[block] > 1
    }
}

/// Whether some ring of the links that count holds both positions.
pub fn ringed(units: u16, links: &[[u16; 2]], counts: impl Fn(usize) -> bool, first: usize, second: usize) -> bool {
    Blocks::new(units, links, counts).ringed(first, second)
}

/// Of positions that exist and as many marks as links: a mark of 0 is a sure link's.
pub fn verdict(units: u16, links: &[[u16; 2]], marks: &[u8], first: usize, second: usize) -> Verdict {
    if ringed(units, links, |j| marks[j] == 0, first, second) {
        Verdict::Always
    } else if ringed(units, links, |_| true, first, second) {
        Verdict::Perhaps
    } else {
        Verdict::Never
    }
}

impl Survey {
    /// Refused with 10, 12, 13, 15.
    pub fn doubtful(&self, first: u16, second: u16, marks: &[u8]) -> Result<Verdict, Refusal> {
        self.must_be_finished()?;
        if first >= self.links || second >= self.links {
            return Err(Refusal::NoSuchName);
        }
        if marks.len() != self.m() {
            return Err(Refusal::LevelsDiffer);
        }
        Ok(verdict(self.units, self.pairs(), marks, first.into(), second.into()))
    }
}
