//! The questions to a finished survey, and the flags of all units and links at once.

use crate::{ABSENT, MAX_LINKS, MAX_UNITS, Refusal, Survey};

#[derive(Clone, Copy, Debug, PartialEq, Eq)]
pub struct UnitAnswer {
    pub unit: u16,
    pub color: u16,
    pub parent: u16,
    pub place: u16,
    pub single: bool,
}

#[derive(Clone, Copy, Debug, PartialEq, Eq)]
pub struct LinkAnswer {
    pub position: u16,
    pub label: u16,
    pub lone: bool,
}

/// The least and the greatest label that meet at a unit: two labels meet where they differ.
#[derive(Clone, Copy)]
pub(crate) struct Labels {
    least: u16,
    greatest: u16,
}

impl Labels {
    const NONE: Labels = Labels { least: ABSENT, greatest: 0 };

    fn meet(&mut self, label: u16) {
        self.least = self.least.min(label);
        self.greatest = self.greatest.max(label);
    }

    pub(crate) fn single(self) -> bool {
        self.least < self.greatest
    }
}

/// How many links have each label, absent too.
pub(crate) struct Sharing([u16; MAX_LINKS + 1]);

impl Sharing {
    pub(crate) fn lone(&self, label: u16) -> bool {
        self.0[Sharing::bucket(label)] == 1
    }

    fn bucket(label: u16) -> usize {
        usize::from(label).min(MAX_LINKS)
    }
}

impl Survey {
    /// Refused with 10, 12, 13.
    pub fn unit(&self, unit: u16) -> Result<UnitAnswer, Refusal> {
        self.must_be_finished()?;
        if unit >= self.units {
            return Err(Refusal::NoSuchName);
        }
        let mut met = Labels::NONE;
        for (link, &label) in self.pairs().iter().zip(&self.label) {
            if link.contains(&unit) {
                met.meet(label);
            }
        }
        Ok(self.unit_answer(unit, met))
    }

    /// Refused with 10, 12, 13.
    pub fn link(&self, position: u16) -> Result<LinkAnswer, Refusal> {
        self.must_be_finished()?;
        if position >= self.links {
            return Err(Refusal::NoSuchName);
        }
        let label = self.label[usize::from(position)];
        let alike = self.label[..self.m()].iter().filter(|&&other| other == label).count();
        Ok(LinkAnswer { position, label, lone: alike == 1 })
    }

    pub(crate) fn unit_answer(&self, unit: u16, met: Labels) -> UnitAnswer {
        let v = usize::from(unit);
        UnitAnswer { unit, color: self.color[v], parent: self.parent[v], place: self.pre[v], single: met.single() }
    }

    pub(crate) fn link_answer(&self, position: u16, sharing: &Sharing) -> LinkAnswer {
        let label = self.label[usize::from(position)];
        LinkAnswer { position, label, lone: sharing.lone(label) }
    }

    pub(crate) fn labels_met(&self) -> [Labels; MAX_UNITS] {
        let mut met = [Labels::NONE; MAX_UNITS];
        for (link, &label) in self.pairs().iter().zip(&self.label) {
            for &end in link {
                met[usize::from(end)].meet(label);
            }
        }
        met
    }

    pub(crate) fn sharing(&self) -> Sharing {
        let mut counts = [0; MAX_LINKS + 1];
        for &label in &self.label[..self.m()] {
            counts[Sharing::bucket(label)] += 1;
        }
        Sharing(counts)
    }
}
