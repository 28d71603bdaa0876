//! Round, run and status.

use crate::{FINISHED, Refusal, Survey, countdown};

#[derive(Clone, Copy, Debug, PartialEq, Eq)]
pub struct Status {
    pub stage: u16,
    pub countdown: u16,
    pub rounds: u16,
    pub requests: u16,
}

impl Survey {
    pub fn finished(&self) -> bool {
        self.stage == FINISHED
    }

    /// Refused with 10, 11.
    pub fn round(&mut self) -> Result<(), Refusal> {
        self.may_go_on()?;
        self.step();
        Ok(())
    }

    /// Makes rounds until the end or until the budget is spent, and returns the rounds made. Refused with 10, 11.
    pub fn run(&mut self, budget: u16) -> Result<u16, Refusal> {
        self.may_go_on()?;
        let mut made = 0;
        while made < budget && !self.finished() {
            self.step();
            made += 1;
        }
        Ok(made)
    }

    /// Refused with 10.
    pub fn status(&self) -> Result<Status, Refusal> {
        self.must_be_kept()?;
        Ok(Status {
            stage: self.stage,
            countdown: countdown(self.units, self.stage, self.made),
            rounds: self.rounds,
            requests: self.requests,
        })
    }

    pub(crate) fn must_be_kept(&self) -> Result<(), Refusal> {
        if self.kept() { Ok(()) } else { Err(Refusal::NotKept) }
    }

    pub(crate) fn may_go_on(&self) -> Result<(), Refusal> {
        self.must_be_kept()?;
        if self.finished() { Err(Refusal::Finished) } else { Ok(()) }
    }

    pub(crate) fn must_be_finished(&self) -> Result<(), Refusal> {
        self.must_be_kept()?;
        if self.finished() { Ok(()) } else { Err(Refusal::NotFinished) }
    }
}
