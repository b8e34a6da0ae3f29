//! FC-CBJ: forward checking with conflict sets and blamers.

use std::collections::BTreeSet;

use super::forward::{trial, Board, Forward};
use super::Found;
use crate::counter::{Counter, Stop};
use crate::harbour::Harbour;

pub fn search(harbour: &Harbour, counter: &mut Counter) -> Found {
    let mut fc_cbj = FcCbj { harbour, counter, plan: Vec::new() };
    match fc_cbj.visit(0, &Board::full(harbour))? {
        Visit::Solved => Ok(Some(fc_cbj.plan)),
        Visit::NoPlan => Ok(None),
        Visit::Jump { .. } => unreachable!("boat 0 has no earlier boat to jump to"),
    }
}

/// How a visit ends; in a jump, `s` is S of the boat that jumps, h still in it.
enum Visit {
    Solved,
    NoPlan,
    Jump { h: usize, s: BTreeSet<usize> },
}

struct FcCbj<'a> {
    harbour: &'a Harbour,
    counter: &'a mut Counter,
    /// Slots of the placed boats 0 to i-1.
    plan: Vec<usize>,
}

impl FcCbj<'_> {
    /// The set and the board live as long as the visit, so a jump past i empties and puts back.
    fn visit(&mut self, i: usize, board: &Board) -> Result<Visit, Stop> {
        if i == self.harbour.boats() {
            return Ok(Visit::Solved);
        }
        let mut set = BTreeSet::new();
        for slot in 0..self.harbour.slots(i) {
            // A struck slot is no trial.
            if !board.is_live(i, slot) {
                continue;
            }
            self.counter.trial()?;
            match trial(self.harbour, self.counter, board, (i, slot))? {
                // Read from the board before the trial: the strikes are put back first.
                Forward::Emptied(j) => set.extend(board.blamers(j)),
                Forward::Board(after) => match self.go_on(i, slot, &after)? {
                    Visit::Jump { h, mut s } if h == i => {
                        s.remove(&i);
                        set.extend(s);
                    }
                    // Solved, no plan, or a jump to a boat before i: this visit is over too.
                    over => return Ok(over),
                },
            }
        }
        set.extend(board.blamers(i));
        match set.last().copied() {
            Some(h) => Ok(Visit::Jump { h, s: set }),
            None => Ok(Visit::NoPlan),
        }
    }

    /// Moves to i+1 with boat i placed; the slot is given up again unless all is solved.
    fn go_on(&mut self, i: usize, slot: usize, after: &Board) -> Result<Visit, Stop> {
        self.plan.push(slot);
        let visit = self.visit(i + 1, after)?;
        if !matches!(visit, Visit::Solved) {
            self.plan.pop();
        }
        Ok(visit)
    }
}
