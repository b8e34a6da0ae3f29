//! Both counts with their allowances, and the one place where a run is stopped.

use crate::harbour::Harbour;

#[derive(Clone, Copy, Debug, PartialEq, Eq)]
pub enum Stop {
    ByChecks,
    ByTrials,
}

pub struct Counter {
    pub checks: u64,
    pub trials: u64,
    checks_allowed: u64,
    trials_allowed: u64,
}

impl Counter {
    pub fn new(checks_allowed: u64, trials_allowed: u64) -> Counter {
        Counter { checks: 0, trials: 0, checks_allowed, trials_allowed }
    }

    /// Before a trial: stop if the allowance is spent, else count it.
    pub fn trial(&mut self) -> Result<(), Stop> {
        if self.trials == self.trials_allowed {
            return Err(Stop::ByTrials);
        }
        self.trials += 1;
        Ok(())
    }

    /// Before a check: stop if the allowance is spent, else count it.
    pub fn check(&mut self) -> Result<(), Stop> {
        if self.checks == self.checks_allowed {
            return Err(Stop::ByChecks);
        }
        self.checks += 1;
        Ok(())
    }

    /// Looks back from a slot of boat i to placed boat h; a pair not listed costs no check.
    pub fn passes(
        &mut self,
        harbour: &Harbour,
        (h, h_slot): (usize, usize),
        (i, i_slot): (usize, usize),
    ) -> Result<bool, Stop> {
        if harbour.listed(h, i) {
            self.check()?;
        }
        Ok(harbour.allows(h, h_slot, i, i_slot))
    }
}
