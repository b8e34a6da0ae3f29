//! CBJ: conflict-directed backjumping.

use std::collections::BTreeSet;

use super::Found;
use crate::counter::{Counter, Stop};
use crate::harbour::Harbour;

pub fn search(harbour: &Harbour, counter: &mut Counter) -> Found {
    let mut cbj = Cbj { harbour, counter, plan: Vec::new() };
    match cbj.visit(0)? {
        Visit::Solved => Ok(Some(cbj.plan)),
        Visit::NoPlan => Ok(None),
        Visit::Jump { .. } => unreachable!("boat 0 has no earlier boat to jump to"),
    }
}

/// How a visit ends; in a jump, `set` is the set of the boat that jumps, h still in it.
enum Visit {
    Solved,
    NoPlan,
    Jump { h: usize, set: BTreeSet<usize> },
}

struct Cbj<'a> {
    harbour: &'a Harbour,
    counter: &'a mut Counter,
    /// Slots of the placed boats 0 to i-1.
    plan: Vec<usize>,
}

impl Cbj<'_> {
    /// The set lives as long as the visit: kept when i moves forward, emptied when a jump passes i.
    fn visit(&mut self, i: usize) -> Result<Visit, Stop> {
        if i == self.harbour.boats() {
            return Ok(Visit::Solved);
        }
        let mut set = BTreeSet::new();
        for slot in 0..self.harbour.slots(i) {
            self.counter.trial()?;
            if let Some(h) = self.first_failing(i, slot)? {
                set.insert(h);
                continue;
            }
            match self.go_on(i, slot)? {
                Visit::Jump { h, set: mut joined } if h == i => {
                    joined.remove(&i);
                    set.extend(joined);
                }
                // Solved, no plan, or a jump to a boat before i: this visit is over too.
                over => return Ok(over),
            }
        }
        match set.last().copied() {
            Some(h) => Ok(Visit::Jump { h, set }),
            None => Ok(Visit::NoPlan),
        }
    }

    /// Moves to i+1 with boat i placed; the slot is given up again unless all is solved.
    fn go_on(&mut self, i: usize, slot: usize) -> Result<Visit, Stop> {
        self.plan.push(slot);
        let visit = self.visit(i + 1)?;
        if !matches!(visit, Visit::Solved) {
            self.plan.pop();
        }
        Ok(visit)
    }

    fn first_failing(&mut self, i: usize, slot: usize) -> Result<Option<usize>, Stop> {
        for h in 0..i {
            if !self.counter.passes(self.harbour, (h, self.plan[h]), (i, slot))? {
                return Ok(Some(h));
            }
        }
        Ok(None)
    }
}
