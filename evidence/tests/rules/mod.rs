//! The stages said slowly: each table after a round is a rule for each entry, over numbers without bounds and reads
//! that give 0 where there is nothing. A rule here is a sentence of document 01 or a row of docs/DECISIONS.md, with no
//! thought for speed.

use plain::{ABSENT, FINISHED, Survey, ceiling, level_of_word, lg};

type Table<'a> = &'a [u16];

/// The least or the greatest of two.
type Op = fn(u32, u32) -> u32;

fn at(table: Table, i: u32) -> u32 {
    table.get(i as usize).map_or(0, |&x| u32::from(x))
}

const NONE: u32 = ABSENT as u32;

fn bounded(x: u32) -> u32 {
    x.min(2048)
}

/// A table after a round: the entries below the count anew, the others as they were.
fn over(table: &mut [u16], count: u32, rule: impl Fn(u32) -> u32) {
    let new: Vec<u16> = (0..count).map(|i| u16::try_from(rule(i)).unwrap()).collect();
    table[..new.len()].copy_from_slice(&new);
}

fn least(count: u32, first: u32, of: impl Fn(u32) -> u32) -> u32 {
    (0..count).fold(first, |least, i| least.min(of(i)))
}

fn count(below: u32, test: impl Fn(u32) -> bool) -> u32 {
    (0..below).filter(|&i| test(i)).count() as u32
}

fn is_root(parent: Table, v: u32) -> bool {
    at(parent, v) == NONE
}

fn off_tree(parent: Table, a: u32, b: u32) -> bool {
    at(parent, a) != b && at(parent, b) != a
}

/// What v hears over a link of a and b: its own value where it is no end.
fn heard(value: Table, a: u32, b: u32, v: u32) -> u32 {
    if a == v {
        at(value, b)
    } else if b == v {
        at(value, a)
    } else {
        at(value, v)
    }
}

struct Rules<'a> {
    s: &'a Survey,
    n: u32,
    m: u32,
    made: u32,
}

impl Rules<'_> {
    fn ends(&self, j: u32) -> (u32, u32) {
        let [a, b] = self.s.ends[j as usize];
        (a.into(), b.into())
    }

    fn said(&self, value: &[u16; 256]) -> [u16; 256] {
        let mut said = *value;
        if self.made == 0 {
            over(&mut said, self.n, |v| v);
        }
        said
    }

    // ---- stages 1 and 2

    fn color(&self, said: Table, v: u32) -> u32 {
        least(self.m, at(said, v), |j| {
            let (a, b) = self.ends(j);
            heard(said, a, b, v)
        })
    }

    /// Document 02, T-02: "of the neighbours visited in the round before, the one with the highest level, ties to the
    /// least number".
    fn chosen_parent(&self, v: u32) -> u32 {
        let before = |w| at(&self.s.dist, w) == self.made - 1;
        let neighbour = |j| match self.ends(j) {
            (a, b) if a == v && before(b) => Some(b),
            (a, b) if b == v && before(a) => Some(a),
            _ => None,
        };
        let level = |j: u32| level_of_word(self.s.levels[j as usize]);
        let highest = (0..self.m).filter(|&j| neighbour(j).is_some()).map(level).max();
        (0..self.m).filter(|&j| Some(level(j)) == highest).filter_map(neighbour).min().unwrap_or(NONE)
    }

    fn visits(&self, v: u32) -> bool {
        if self.made == 0 {
            at(&self.s.color, v) == v
        } else {
            at(&self.s.dist, v) == NONE && self.chosen_parent(v) != NONE
        }
    }

    /// Document 02, T-05: a tree drawn by the planner is given.
    fn planned(&self) -> bool {
        self.s.given != 0
    }

    /// The steps up the plan to the colour unit, among the first k units of the chain.
    fn steps(&self, to: u32, k: u32, v: u32) -> u32 {
        match at(&self.s.plan, v) {
            _ if k == 0 => NONE,
            _ if v == to => 0,
            NONE => NONE,
            parent => match self.steps(to, k - 1, parent) {
                NONE => NONE,
                steps => steps + 1,
            },
        }
    }

    fn parent(&self, v: u32) -> u32 {
        if self.planned() {
            return at(&self.s.plan, v);
        }
        match (self.visits(v), self.made) {
            (false, _) => at(&self.s.parent, v),
            (true, 0) => NONE,
            (true, _) => self.chosen_parent(v),
        }
    }

    fn dist(&self, v: u32) -> u32 {
        if self.planned() {
            return self.steps(at(&self.s.color, v), self.n, v);
        }
        if self.visits(v) { self.made } else { at(&self.s.dist, v) }
    }

    // ---- stage 3

    fn is_arc(&self, a: u32) -> bool {
        !is_root(&self.s.parent, a / 2)
    }

    fn tree_neighbours(&self, v: u32) -> Vec<u32> {
        let parent = &self.s.parent;
        (0..self.n).filter(|&w| at(parent, w) == v || at(parent, v) == w).collect()
    }

    fn arc_after(&self, u: u32, v: u32) -> u32 {
        let neighbours = self.tree_neighbours(v);
        let w = *neighbours.iter().find(|&&w| w > u).unwrap_or(&neighbours[0]);
        if at(&self.s.parent, w) == v { 2 * w } else { 2 * v + 1 }
    }

    fn follower(&self, a: u32) -> u32 {
        let (v, p) = (a / 2, at(&self.s.parent, a / 2));
        match (self.is_arc(a), a % 2) {
            (false, _) => NONE,
            (true, 0) => self.arc_after(p, v),
            (true, _) => self.arc_after(v, p),
        }
    }

    fn predecessor(&self, a: u32) -> u32 {
        let (v, p) = (a / 2, at(&self.s.parent, a / 2));
        let is_start =
            || a.is_multiple_of(2) && is_root(&self.s.parent, p) && self.tree_neighbours(p).first() == Some(&v);
        if !self.is_arc(a) || is_start() {
            return NONE;
        }
        least(2 * self.n, NONE, |b| if at(&self.s.next, b) == a { b } else { NONE })
    }

    // ---- stages 4 to 6

    fn asks(&self, a: u32) -> bool {
        at(&self.s.jump, a) != NONE
    }

    fn requests(&self) -> u32 {
        count(2 * self.n, |a| self.asks(a))
    }

    fn sum(&self, a: u32) -> u32 {
        let sum = &self.s.sum;
        if self.asks(a) { bounded(at(sum, a) + at(sum, at(&self.s.jump, a))) } else { at(sum, a) }
    }

    fn jump(&self, a: u32) -> u32 {
        let jump = &self.s.jump;
        if self.asks(a) { at(jump, at(jump, a)) } else { NONE }
    }

    fn forward(&self, a: u32) -> u32 {
        let reverse = if a.is_multiple_of(2) { a + 1 } else { a - 1 };
        u32::from(self.is_arc(a) && at(&self.s.sum, a) < at(&self.s.sum, reverse))
    }

    fn descendants(&self, v: u32) -> u32 {
        let (color, rank) = (&self.s.color, &self.s.sum);
        if is_root(&self.s.parent, v) {
            count(self.n, |w| at(color, w) == at(color, v))
        } else {
            (at(rank, 2 * v + 1) + 1).saturating_sub(at(rank, 2 * v)) / 2
        }
    }

    fn place(&self, v: u32) -> u32 {
        let color = &self.s.color;
        let forward = if is_root(&self.s.parent, v) { 0 } else { at(&self.s.sum, 2 * v) };
        bounded(forward + count(self.n, |w| at(color, w) < at(color, v)))
    }

    // ---- stage 7, for min and for max

    fn local(&self, op: Op, v: u32) -> u32 {
        let pre = &self.s.pre;
        (0..self.m).fold(at(pre, v), |value, j| {
            let (a, b) = self.ends(j);
            op(value, if off_tree(&self.s.parent, a, b) { heard(pre, a, b, v) } else { at(pre, v) })
        })
    }

    fn local_at(&self, op: Op, place: u32) -> u32 {
        let unit = (0..self.n).find(|&v| at(&self.s.pre, v) == place);
        unit.map_or(0, |v| self.local(op, v))
    }

    fn end_place(&self, v: u32) -> u32 {
        at(&self.s.pre, v) + at(&self.s.nd, v)
    }

    fn range_begin(&self, op: Op, v: u32) -> u32 {
        let end = self.end_place(v);
        if 1 <= end && end <= self.n { self.local_at(op, end - 1) } else { 0 }
    }

    fn length(&self) -> u32 {
        1 << (self.made - 1)
    }

    fn odd(&self, place: u32) -> bool {
        !place.is_multiple_of(2 * self.length())
    }

    fn goes_on(&self, v: u32) -> bool {
        at(&self.s.little, v) < at(&self.s.big, v)
    }

    fn range(&self, op: Op, global: Table, range: Table, v: u32) -> u32 {
        let segment = |place| if place < self.n { at(global, place) } else { 0 };
        let (little, big) = (at(&self.s.little, v), at(&self.s.big, v));
        let mut value = at(range, v);
        if self.goes_on(v) && self.odd(little) {
            value = op(value, segment(little));
        }
        if self.goes_on(v) && self.odd(big) {
            value = op(value, if big >= self.length() { segment(big - self.length()) } else { 0 });
        }
        value
    }

    fn little(&self, v: u32) -> u32 {
        let little = at(&self.s.little, v);
        if self.goes_on(v) && self.odd(little) { bounded(little + self.length()) } else { little }
    }

    fn big(&self, v: u32) -> u32 {
        let big = at(&self.s.big, v);
        if self.goes_on(v) && self.odd(big) { big.saturating_sub(self.length()) } else { big }
    }

    fn global(&self, op: Op, global: Table, place: u32) -> u32 {
        let on = place + self.length();
        if !self.odd(place) && on < self.n { op(at(global, place), at(global, on)) } else { at(global, place) }
    }

    // ---- stages 8 to 10

    fn within(&self, u: u32, v: u32) -> bool {
        let (first, place) = (at(&self.s.pre, u), at(&self.s.pre, v));
        first <= place && place < first + at(&self.s.nd, u)
    }

    fn joins_parent(&self, u: u32) -> bool {
        let s = self.s;
        let p = at(&s.parent, u);
        !is_root(&s.parent, u)
            && !is_root(&s.parent, p)
            && (at(&s.low, u) < at(&s.pre, p) || at(&s.high, u) >= at(&s.pre, p) + at(&s.nd, p))
    }

    fn class(&self, said: Table, v: u32) -> u32 {
        let parent = &self.s.parent;
        let over = |mark: u32, a: u32, b: u32| {
            if mark != 0 && !is_root(parent, a) && !is_root(parent, b) { heard(said, a, b, v) } else { at(said, v) }
        };
        if is_root(parent, v) {
            return NONE;
        }
        let by_links = least(self.m, at(said, v), |j| {
            let (a, b) = self.ends(j);
            over(at(&self.s.aux_links, j), a, b)
        });
        least(self.n, by_links, |u| over(at(&self.s.aux_parents, u), u, at(parent, u)))
    }

    fn link_class(&self, j: u32) -> u32 {
        let (parent, pre) = (&self.s.parent, &self.s.pre);
        let (a, b) = self.ends(j);
        let unit = if at(parent, a) == b && at(parent, b) == a {
            a.min(b)
        } else if at(parent, b) == a {
            b
        } else if at(parent, a) == b || at(pre, b) < at(pre, a) {
            a
        } else {
            b
        };
        at(&self.s.aux_color, unit)
    }

    fn label(&self, j: u32) -> u32 {
        let class = &self.s.class;
        least(self.m, NONE, |k| if at(class, k) == at(class, j) { k } else { NONE })
    }

    /// The stage's own rule ends it with the round that leaves this state.
    fn rule_ends(&self, after: &Survey) -> bool {
        let n = self.n as usize;
        let s = self.s;
        match s.stage {
            1 => self.made != 0 && s.color[..n] == after.color[..n],
            2 => self.planned() || !(0..self.n).any(|v| self.visits(v)),
            4 | 6 => self.requests() == 0,
            7 => self.made == u32::from(lg(s.units)),
            8 => true,
            9 => self.made != 0 && s.aux_color[..n] == after.aux_color[..n],
            _ => self.made == 1,
        }
    }
}

/// The state after one round.
pub fn step(s: &Survey) -> Survey {
    let mut new = s.clone();
    if s.stage == FINISHED {
        return new;
    }
    let r = Rules { s, n: s.units.into(), m: s.links.into(), made: s.made.into() };
    let (n, m, arcs) = (r.n, r.m, 2 * r.n);
    let (min, max): (Op, Op) = (u32::min, u32::max);
    let ceiling = ceiling(s.units, s.stage);
    match (s.stage, s.made) {
        (1, _) => over(&mut new.color, n, |v| r.color(&r.said(&s.color), v)),
        (2, _) => {
            over(&mut new.parent, n, |v| r.parent(v));
            over(&mut new.dist, n, |v| r.dist(v));
        }
        (3, 0) => over(&mut new.next, arcs, |a| r.follower(a)),
        (3, _) => {
            over(&mut new.pred, arcs, |a| r.predecessor(a));
            over(&mut new.jump, arcs, |a| r.predecessor(a));
            over(&mut new.sum, arcs, |a| u32::from(r.is_arc(a)));
        }
        (4 | 6, _) => {
            over(&mut new.sum, arcs, |a| r.sum(a));
            over(&mut new.jump, arcs, |a| r.jump(a));
            if s.stage == 6 && (r.requests() == 0 || s.made + 1 >= ceiling) {
                over(&mut new.pre, n, |v| r.place(v));
            }
        }
        (5, 0) => over(&mut new.forward, arcs, |a| r.forward(a)),
        (5, _) => {
            over(&mut new.nd, n, |v| r.descendants(v));
            over(&mut new.sum, arcs, |a| u32::from(r.is_arc(a) && at(&s.forward, a) != 0));
            over(&mut new.jump, arcs, |a| at(&s.pred, a));
        }
        (7, 0) => {
            over(&mut new.global_low, n, |q| r.local_at(min, q));
            over(&mut new.global_high, n, |q| r.local_at(max, q));
            over(&mut new.low, n, |v| r.range_begin(min, v));
            over(&mut new.high, n, |v| r.range_begin(max, v));
            over(&mut new.little, n, |v| at(&s.pre, v));
            over(&mut new.big, n, |v| bounded(r.end_place(v).saturating_sub(1)));
        }
        (7, _) => {
            over(&mut new.global_low, n, |q| r.global(min, &s.global_low, q));
            over(&mut new.global_high, n, |q| r.global(max, &s.global_high, q));
            over(&mut new.low, n, |v| r.range(min, &s.global_low, &s.low, v));
            over(&mut new.high, n, |v| r.range(max, &s.global_high, &s.high, v));
            over(&mut new.little, n, |v| r.little(v));
            over(&mut new.big, n, |v| r.big(v));
        }
        (8, _) => {
            over(&mut new.aux_parents, n, |v| u32::from(r.joins_parent(v)));
            over(&mut new.aux_links, m, |j| {
                let (a, b) = r.ends(j);
                u32::from(off_tree(&s.parent, a, b) && !r.within(a, b) && !r.within(b, a))
            });
        }
        (9, _) => over(&mut new.aux_color, n, |v| r.class(&r.said(&s.aux_color), v)),
        (_, 0) => over(&mut new.class, m, |j| r.link_class(j)),
        _ => over(&mut new.label, m, |j| r.label(j)),
    }
    let last = r.rule_ends(&new) || s.made + 1 >= ceiling;
    let requests = if matches!(s.stage, 4 | 6) { r.requests() } else { 0 };
    new.stage = s.stage + u16::from(last);
    new.made = if last { 0 } else { s.made + 1 };
    new.rounds = (s.rounds + 1).min(804);
    new.requests = (u32::from(s.requests) + requests).min(8158) as u16;
    new
}

/// Links of two labels meet at the unit.
pub fn single(s: &Survey, unit: u16) -> bool {
    let mut met = (0..usize::from(s.links)).filter(|&j| s.ends[j].contains(&unit)).map(|j| s.label[j]);
    let first = met.next();
    met.any(|label| Some(label) != first)
}

/// The link is alone in its label.
pub fn lone(s: &Survey, position: u16) -> bool {
    let label = s.label[usize::from(position)];
    (0..usize::from(s.links)).filter(|&j| s.label[j] == label).count() == 1
}
