//! Show the ring (document 02, T-04): two paths without a common unit from the ends of the first link to those of the
//! second, as a flow of two through a network in which each unit takes one (Menger). What is shown is the program's
//! choice, so there is a judge of any reply too.

use crate::{Refusal, Survey};
use std::collections::VecDeque;

/// A step of the network: where it leads to, and how much it still takes. The step back has the same number but for its
/// last bit.
struct Step {
    to: usize,
    left: u8,
}

/// Each unit as a way in (2v) and a way out (2v + 1), joined by a step that takes one.
struct Network {
    steps: Vec<Step>,
    from: Vec<Vec<usize>>,
}

impl Network {
    fn new(units: usize, links: &[[u16; 2]]) -> Network {
        let mut network = Network { steps: Vec::new(), from: vec![Vec::new(); 2 * units + 2] };
        for v in 0..units {
            network.join(2 * v, 2 * v + 1);
        }
        for link in links {
            let [a, b] = link.map(usize::from);
            network.join(2 * a + 1, 2 * b);
            network.join(2 * b + 1, 2 * a);
        }
        network
    }

    fn join(&mut self, a: usize, b: usize) {
        self.from[a].push(self.steps.len());
        self.steps.push(Step { to: b, left: 1 });
        self.from[b].push(self.steps.len());
        self.steps.push(Step { to: a, left: 0 });
    }

    /// One more from source to sink, if that can be.
    fn push(&mut self, source: usize, sink: usize) -> bool {
        let mut came: Vec<Option<usize>> = vec![None; self.from.len()];
        let mut waiting = VecDeque::from([source]);
        while let Some(at) = waiting.pop_front() {
            for &step in &self.from[at] {
                let to = self.steps[step].to;
                if self.steps[step].left > 0 && to != source && came[to].is_none() {
                    came[to] = Some(step);
                    waiting.push_back(to);
                }
            }
        }
        let mut at = sink;
        while at != source {
            let Some(step) = came[at] else { return false };
            self.steps[step].left -= 1;
            self.steps[step ^ 1].left += 1;
            at = self.steps[step ^ 1].to;
        }
        true
    }

    /// The units that the flow goes through from one on, up to the sink.
    fn path(&self, first: u16, sink: usize) -> Vec<u16> {
        let mut path = vec![first];
        let mut out = 2 * usize::from(first) + 1;
        loop {
            let used = |&step: &usize| step % 2 == 0 && self.steps[step].left == 0;
            let step = self.from[out].iter().copied().find(used).expect("what flows in flows out");
            let to = self.steps[step].to;
            if to == sink {
                return path;
            }
            path.push((to / 2) as u16);
            out = to + 1;
        }
    }
}

/// A ring of these links that holds both positions, the ends of the first in front; none where there is none.
pub fn ring_through(units: u16, links: &[[u16; 2]], first: usize, second: usize) -> Option<Vec<u16>> {
    if first == second {
        return ring_back(units, links, first);
    }
    let units = usize::from(units);
    let (source, sink) = (2 * units, 2 * units + 1);
    let ([a, b], [c, d]) = (links[first], links[second]);
    let mut network = Network::new(units, links);
    for end in [a, b] {
        network.join(source, 2 * usize::from(end));
    }
    for end in [c, d] {
        network.join(2 * usize::from(end) + 1, sink);
    }
    if !(network.push(source, sink) && network.push(source, sink)) {
        return None;
    }
    // a, then from b to an end of the second link, then from its other end back
    let mut back = network.path(a, sink);
    back.reverse();
    back.pop();
    Some([vec![a], network.path(b, sink), back].concat())
}

/// A ring through one link: a path between its ends without it.
fn ring_back(units: u16, links: &[[u16; 2]], position: usize) -> Option<Vec<u16>> {
    let [a, b] = links[position];
    let mut before: Vec<Option<u16>> = vec![None; usize::from(units)];
    let mut waiting = VecDeque::from([a]);
    while let Some(at) = waiting.pop_front() {
        for (j, &[c, d]) in links.iter().enumerate() {
            let to = if c == at { d } else { c };
            if j != position && (c == at || d == at) && to != a && before[usize::from(to)].is_none() {
                before[usize::from(to)] = Some(at);
                waiting.push_back(to);
            }
        }
    }
    let mut ring = vec![a];
    let mut at = b;
    while at != a {
        ring.push(at);
        at = before[usize::from(at)]?;
    }
    Some(ring)
}

/// Whether some units are a ring of these links that holds both positions, in walking order, the ends of the first in
/// front as the table has them (T-04a); and if not, why.
pub fn judge_ring(
    units: u16,
    links: &[[u16; 2]],
    first: usize,
    second: usize,
    ring: &[u16],
) -> Result<(), &'static str> {
    let joins = |position: usize, a: u16, b: u16| links[position] == [a, b] || links[position] == [b, a];
    let pairs = || ring.iter().zip(ring.iter().cycle().skip(1));
    if ring.len() < 3 {
        return Err("a ring has three units or more");
    }
    if ring.iter().any(|&unit| unit >= units) {
        return Err("the ring has a unit that the site has not");
    }
    if (1..ring.len()).any(|i| ring[..i].contains(&ring[i])) {
        return Err("the ring has a unit twice");
    }
    if !pairs().all(|(&a, &b)| (0..links.len()).any(|j| joins(j, a, b))) {
        return Err("no link joins two units that follow each other on the ring");
    }
    if ring[..2] != links[first] {
        return Err("the ring does not start with the ends of the first link");
    }
    if !pairs().any(|(&a, &b)| joins(second, a, b)) {
        return Err("the second link is not on the ring");
    }
    Ok(())
}

impl Survey {
    /// Returns the number of units of the ring, written at the front of the slice; 0 where there is none. Refused with
    /// 10, 12, 13, 14.
    pub fn ring(&self, first: u16, second: u16, out: &mut [u16]) -> Result<u16, Refusal> {
        self.must_be_finished()?;
        if first >= self.links || second >= self.links {
            return Err(Refusal::NoSuchName);
        }
        if out.len() < self.n() {
            return Err(Refusal::TooShort);
        }
        let ring = ring_through(self.units, self.pairs(), first.into(), second.into()).unwrap_or_default();
        out[..ring.len()].copy_from_slice(&ring);
        Ok(ring.len() as u16)
    }
}
