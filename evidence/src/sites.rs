//! Tables of links of many shapes.

use crate::random::Random;
use crate::{ABSENT, HIGHEST_LEVEL, LOWEST_LEVEL, MAX_LINKS, MAX_UNITS};
use std::collections::HashSet;

/// A unit count, a table and its levels that a load takes.
#[derive(Clone, Debug)]
pub struct Site {
    pub units: u16,
    pub table: Vec<u16>,
    pub levels: Vec<i16>,
}

impl Site {
    fn new(units: usize, links: impl IntoIterator<Item = (usize, usize)>) -> Site {
        let table: Vec<u16> = links.into_iter().flat_map(|(a, b)| [a as u16, b as u16]).collect();
        Site { units: units as u16, levels: vec![LOWEST_LEVEL; table.len() / 2], table }
    }

    pub fn links(&self) -> usize {
        self.table.len() / 2
    }
}

pub fn path(n: usize) -> Site {
    Site::new(n, (1..n).map(|v| (v - 1, v)))
}

/// Of three units or more.
pub fn ring(n: usize) -> Site {
    Site::new(n, (0..n).map(|v| (v, (v + 1) % n)))
}

pub fn star(n: usize) -> Site {
    Site::new(n, (1..n).map(|v| (0, v)))
}

/// Two paths with a rung between each pair; an odd last unit hangs on.
pub fn ladder(n: usize) -> Site {
    let rungs = (0..n / 2).map(|k| (2 * k, 2 * k + 1));
    Site::new(n, rungs.chain((2..n).map(|v| (v - 2, v))))
}

/// Each unit linked with so many after it, as far as the limits go.
pub fn strip(n: usize, width: usize) -> Site {
    Site::new(
        n,
        (1..n).flat_map(|b| (b.saturating_sub(width)..b).map(move |a| (a, b))).take(MAX_LINKS).collect::<Vec<_>>(),
    )
}

/// Rings of three, one after the other, that share a unit.
fn rings_at_points(n: usize) -> Site {
    let along = (1..n).map(|v| (v - 1, v));
    Site::new(n, along.chain((2..n).step_by(2).map(|v| (v - 2, v))))
}

fn wheel(n: usize) -> Site {
    let rim = (1..n.saturating_sub(1)).map(|v| (v, v + 1));
    Site::new(n, rim.chain((1..n).map(|v| (0, v))))
}

fn complete(n: usize) -> Site {
    Site::new(n, (0..n).flat_map(|b| (0..b).map(move |a| (a, b))).take(MAX_LINKS))
}

fn tree(random: &mut Random, n: usize) -> Site {
    Site::new(n, (1..n).map(|v| (random.below(v), v)).collect::<Vec<_>>())
}

/// A ring, and links between pairs that chance picks, up to so many in all: every unit has a link.
pub fn ring_and_more(random: &mut Random, n: usize, links: usize) -> Site {
    let mut order: Vec<(usize, usize)> = (0..n).map(|v| (v, (v + 1) % n)).collect();
    let mut pairs: HashSet<(usize, usize)> = order.iter().map(|&(a, b)| (a.min(b), a.max(b))).collect();
    let links = links.min(n * (n - 1) / 2).min(MAX_LINKS);
    while order.len() < links {
        let (a, b) = (random.below(n), random.below(n));
        if a != b && pairs.insert((a.min(b), a.max(b))) {
            order.push((a, b));
        }
    }
    Site::new(n, order)
}

/// Up to so many links between pairs that chance picks.
pub fn scattered(random: &mut Random, n: usize, links: usize) -> Site {
    let links = links.min(n * (n - 1) / 2).min(MAX_LINKS);
    let mut pairs = HashSet::new();
    let mut order = Vec::new();
    while order.len() < links {
        let (a, b) = (random.below(n), random.below(n));
        if a != b && pairs.insert((a.min(b), a.max(b))) {
            order.push((a, b));
        }
    }
    Site::new(n, order)
}

/// Two sites side by side, as far as the limits go.
fn beside(left: Site, right: &Site) -> Site {
    let (n, m) = (usize::from(left.units), usize::from(right.units));
    if n + m > MAX_UNITS || left.links() + right.links() > MAX_LINKS {
        return left;
    }
    let mut table = left.table;
    table.extend(right.table.iter().map(|end| end + left.units));
    Site { units: left.units + right.units, table, levels: [left.levels, right.levels.clone()].concat() }
}

/// Other numbers for the units, another order of the links and of their ends.
pub fn renamed(random: &mut Random, site: &Site) -> Site {
    let mut names: Vec<u16> = (0..site.units).collect();
    random.shuffle(&mut names);
    let mut links: Vec<([u16; 2], i16)> =
        site.table.as_chunks().0.iter().copied().zip(site.levels.iter().copied()).collect();
    random.shuffle(&mut links);
    for (ends, _) in &mut links {
        *ends = ends.map(|end| names[usize::from(end)]);
        random.shuffle(ends);
    }
    let (table, levels): (Vec<[u16; 2]>, Vec<i16>) = links.into_iter().unzip();
    Site { units: site.units, table: table.concat(), levels }
}

/// Any level, or one near the limits.
pub fn some_level(random: &mut Random) -> i16 {
    match random.below(8) {
        0 => LOWEST_LEVEL,
        1 => HIGHEST_LEVEL,
        2 => random.pick(&[LOWEST_LEVEL + 1, HIGHEST_LEVEL - 1, -64, -63]),
        _ => random.between(0, 127) as i16 + LOWEST_LEVEL,
    }
}

/// Levels for all links: any, few that come again and again, or one for all.
fn levelled(random: &mut Random, mut site: Site) -> Site {
    let few: [i16; 3] = std::array::from_fn(|_| some_level(random));
    let kind = random.below(4);
    for level in &mut site.levels {
        *level = match kind {
            0 => few[0],
            1 => random.pick(&few),
            _ => some_level(random),
        };
    }
    site
}

/// A number of units: mostly few, at times as many as there may be.
pub fn some_units(random: &mut Random) -> usize {
    match random.below(16) {
        0..=7 => random.between(1, 8),
        8..=12 => random.between(1, 32),
        13..=14 => random.between(1, MAX_UNITS),
        _ => random.pick(&[1, 2, 127, 128, 129, 255, 256]),
    }
}

fn shape(random: &mut Random, n: usize) -> Site {
    match random.below(11) {
        0 => path(n),
        1 if n >= 3 => ring(n),
        2 => star(n),
        3 => ladder(n),
        4 => rings_at_points(n),
        5 => wheel(n),
        6 => complete(n),
        7 => tree(random, n),
        8 => scattered(random, n, n),
        9 => Site::new(n, []),
        _ => {
            let links = random.below(4 * n + 1);
            scattered(random, n, links)
        }
    }
}

/// A site of any shape that a load takes.
pub fn any_site(random: &mut Random) -> Site {
    let n = some_units(random);
    let mut site = shape(random, n);
    if random.once_in(3) {
        let m = some_units(random);
        site = beside(site, &shape(random, m));
    }
    if !random.once_in(4) {
        site = renamed(random, &site);
    }
    if random.once_in(8) { site } else { levelled(random, site) }
}

/// A table of parents: a forest along links, grown from the least units in some order of the links. Links with an end
/// that is no unit are left out.
pub fn any_parents(random: &mut Random, units: u16, table: &[u16]) -> Vec<u16> {
    let mut parents = vec![ABSENT; usize::from(units)];
    let mut seen = vec![false; parents.len()];
    let mut links: Vec<[u16; 2]> = table.as_chunks().0.to_vec();
    links.retain(|link| link.iter().all(|&v| v < units));
    random.shuffle(&mut links);
    for root in 0..parents.len() {
        seen[root] = true;
        let ways = || links.iter().flat_map(|&[a, b]| [(a, b), (b, a)]);
        while let Some((v, w)) = ways().find(|&(v, w)| seen[usize::from(w)] && !seen[usize::from(v)]) {
            (parents[usize::from(v)], seen[usize::from(v)]) = (w, true);
        }
    }
    parents
}

/// A unit count and a table of ordered pairs (T-11): links that lead up, down or either way, or both ways at once.
pub fn any_one_way(random: &mut Random) -> (u16, Vec<u16>) {
    let site = any_site(random);
    let mut links: Vec<[u16; 2]> = site.table.as_chunks().0.to_vec();
    let kind = random.below(5);
    for link in &mut links {
        match kind {
            0 => link.sort(),
            1 if !random.once_in(8) => link.sort(),
            2 => link.sort_by(|a, b| b.cmp(a)),
            _ => random.shuffle(link),
        }
    }
    if random.once_in(2) {
        let often = random.between(1, 12);
        let back: Vec<[u16; 2]> = links.iter().filter(|_| random.once_in(often)).map(|&[a, b]| [b, a]).collect();
        links.extend(back);
        links.truncate(MAX_LINKS);
    }
    if random.once_in(2) {
        random.shuffle(&mut links);
    }
    (site.units, links.concat())
}
