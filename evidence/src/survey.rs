//! The state of a survey and its load.

use crate::{
    ABSENT, HIGHEST_LEVEL, MAX_LINKS, MAX_UNITS, Refusal, check_fresh, check_plan, check_table, word_of_level,
};

const UNITS: usize = MAX_UNITS;
/// Directed tree links, document 01's list places: 2v is the one into v, 2v + 1 the one out of v.
pub(crate) const ARCS: usize = 2 * MAX_UNITS;
const LINKS: usize = MAX_LINKS;

/// Arrays have their full length whatever the unit count is; a round leaves the entries past its range as they were.
#[derive(Clone, Debug, PartialEq, Eq)]
pub struct Survey {
    pub units: u16,
    pub links: u16,
    pub ends: [[u16; 2]; LINKS],
    /// 1 to 10; 11 is finished.
    pub stage: u16,
    /// Rounds made in this stage.
    pub made: u16,
    pub rounds: u16,
    pub requests: u16,
    pub color: [u16; UNITS],
    pub parent: [u16; UNITS],
    pub dist: [u16; UNITS],
    pub next: [u16; ARCS],
    pub pred: [u16; ARCS],
    /// Working predecessors and sums of a ranking.
    pub jump: [u16; ARCS],
    pub sum: [u16; ARCS],
    pub forward: [u16; ARCS],
    /// Descendants.
    pub nd: [u16; UNITS],
    /// Places.
    pub pre: [u16; UNITS],
    pub low: [u16; UNITS],
    pub high: [u16; UNITS],
    pub little: [u16; UNITS],
    pub big: [u16; UNITS],
    /// Segments.
    pub global_low: [u16; UNITS],
    pub global_high: [u16; UNITS],
    /// Joins of units with their parents and of links, and the class of each tree link.
    pub aux_parents: [u16; UNITS],
    pub aux_links: [u16; LINKS],
    pub aux_color: [u16; UNITS],
    pub class: [u16; LINKS],
    pub label: [u16; LINKS],
    /// Each level as its word.
    pub levels: [u16; LINKS],
    /// Parents drawn by the planner (T-05), and whether they were given: any number but 0.
    pub plan: [u16; UNITS],
    pub given: u16,
}

impl Survey {
    pub const MAX_ROUNDS: u16 = 804;
    pub const MAX_REQUESTS: u16 = 8158;

    /// A state that was never loaded: it has no unit, and so is not kept.
    pub fn new() -> Survey {
        Survey {
            units: 0,
            links: 0,
            ends: [[ABSENT; 2]; LINKS],
            stage: 1,
            made: 0,
            rounds: 0,
            requests: 0,
            color: [ABSENT; UNITS],
            parent: [ABSENT; UNITS],
            dist: [ABSENT; UNITS],
            next: [ABSENT; ARCS],
            pred: [ABSENT; ARCS],
            jump: [ABSENT; ARCS],
            sum: [0; ARCS],
            forward: [0; ARCS],
            nd: [0; UNITS],
            pre: [0; UNITS],
            low: [0; UNITS],
            high: [0; UNITS],
            little: [0; UNITS],
            big: [0; UNITS],
            global_low: [0; UNITS],
            global_high: [0; UNITS],
            aux_parents: [0; UNITS],
            aux_links: [0; LINKS],
            aux_color: [ABSENT; UNITS],
            class: [ABSENT; LINKS],
            label: [ABSENT; LINKS],
            levels: [word_of_level(HIGHEST_LEVEL); LINKS],
            plan: [ABSENT; UNITS],
            given: 0,
        }
    }

    /// Of a fresh table. Refused with 4, 5, 6, 15, 16, 7, 8, 9, 22.
    pub fn load(&mut self, units: u16, table: &[u16], levels: &[i16]) -> Result<(), Refusal> {
        check_fresh(units, table, levels)?;
        self.begin(units, table, levels);
        Ok(())
    }

    /// Of a stored table. Refused with 4, 5, 6, 15, 16, 7, 8, 9.
    pub fn load_stored(&mut self, units: u16, table: &[u16], levels: &[i16]) -> Result<(), Refusal> {
        check_table(units, table, levels)?;
        self.begin(units, table, levels);
        Ok(())
    }

    /// With a tree drawn by the planner. Refused with 4, 5, 6, 15, 16, 7, 8, 9, 17, 18, 22.
    pub fn load_planned(&mut self, units: u16, table: &[u16], levels: &[i16], parents: &[u16]) -> Result<(), Refusal> {
        check_table(units, table, levels)?;
        check_plan(units, table, parents)?;
        check_fresh(units, table, levels)?;
        self.begin(units, table, levels);
        self.plan[..parents.len()].copy_from_slice(parents);
        self.given = 1;
        Ok(())
    }

    /// The survey of a table that passes the checks.
    fn begin(&mut self, units: u16, table: &[u16], levels: &[i16]) {
        *self = Survey::new();
        self.units = units;
        self.links = (table.len() / 2) as u16;
        self.ends.as_flattened_mut()[..table.len()].copy_from_slice(table);
        for (word, &level) in self.levels.iter_mut().zip(levels) {
            *word = word_of_level(level);
        }
    }

    pub(crate) fn n(&self) -> usize {
        usize::from(self.units)
    }

    pub(crate) fn m(&self) -> usize {
        usize::from(self.links)
    }

    /// The ends of each link, in order of position.
    pub(crate) fn pairs(&self) -> &[[u16; 2]] {
        &self.ends[..self.m()]
    }
}

impl Default for Survey {
    fn default() -> Survey {
        Survey::new()
    }
}
