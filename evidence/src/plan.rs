//! The checks of a table of parents drawn by the planner (T-05), as document 02 words them: by the colour of each unit.

use crate::{ABSENT, MAX_UNITS, Refusal};

/// 17, 18, of a table that passes its own checks.
pub fn check_plan(units: u16, table: &[u16], parents: &[u16]) -> Result<(), Refusal> {
    if parents.len() != usize::from(units) {
        return Err(Refusal::ParentsDiffer);
    }
    let (links, _) = table.as_chunks::<2>();
    let color = colors(parents.len(), links);
    let fits = (0..units).all(|v| {
        let (parent, root) = (parents[usize::from(v)], color[usize::from(v)]);
        if root == v { parent == ABSENT } else { neighbours(links, v, parent) && arrives(parents, v, root) }
    });
    if fits { Ok(()) } else { Err(Refusal::PlanUnfit) }
}

/// The least unit that each is linked up with.
fn colors(units: usize, links: &[[u16; 2]]) -> [u16; MAX_UNITS] {
    let mut color = [0; MAX_UNITS];
    for (v, color) in (0..).zip(&mut color[..units]) {
        *color = v;
    }
    loop {
        let before = color;
        for &[a, b] in links {
            let (a, b) = (usize::from(a), usize::from(b));
            let least = color[a].min(color[b]);
            (color[a], color[b]) = (least, least);
        }
        if color == before {
            return color;
        }
    }
}

fn neighbours(links: &[[u16; 2]], v: u16, w: u16) -> bool {
    links.iter().any(|&[a, b]| (a, b) == (v, w) || (b, a) == (v, w))
}

/// The chain of parents from a unit ends at another, within as many steps as there are units.
fn arrives(parents: &[u16], v: u16, root: u16) -> bool {
    let mut at = v;
    for _ in parents {
        match parents.get(usize::from(at)) {
            Some(&ABSENT) => return at == root,
            Some(&parent) => at = parent,
            None => return false,
        }
    }
    false
}
