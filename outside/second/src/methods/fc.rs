//! FC: forward checking.

use super::forward::{trial, Board, Forward};
use super::Found;
use crate::counter::{Counter, Stop};
use crate::harbour::Harbour;

pub fn search(harbour: &Harbour, counter: &mut Counter) -> Found {
    let mut fc = Fc { harbour, counter, plan: Vec::new() };
    let solved = fc.visit(0, &Board::full(harbour))?;
    Ok(solved.then_some(fc.plan))
}

struct Fc<'a> {
    harbour: &'a Harbour,
    counter: &'a mut Counter,
    /// Slots of the placed boats 0 to i-1.
    plan: Vec<usize>,
}

impl Fc<'_> {
    /// The board given is as boats 0 to i-1 left it; each trial starts from it again.
    fn visit(&mut self, i: usize, board: &Board) -> Result<bool, Stop> {
        if i == self.harbour.boats() {
            return Ok(true);
        }
        for slot in 0..self.harbour.slots(i) {
            // A struck slot is no trial.
            if !board.is_live(i, slot) {
                continue;
            }
            self.counter.trial()?;
            let Forward::Board(after) = trial(self.harbour, self.counter, board, (i, slot))? else {
                continue;
            };
            self.plan.push(slot);
            if self.visit(i + 1, &after)? {
                return Ok(true);
            }
            self.plan.pop();
        }
        Ok(false)
    }
}
