//! BT: plain search.

use super::Found;
use crate::counter::{Counter, Stop};
use crate::harbour::Harbour;

pub fn search(harbour: &Harbour, counter: &mut Counter) -> Found {
    let mut bt = Bt { harbour, counter, plan: Vec::new() };
    let solved = bt.visit(0)?;
    Ok(solved.then_some(bt.plan))
}

struct Bt<'a> {
    harbour: &'a Harbour,
    counter: &'a mut Counter,
    /// Slots of the placed boats 0 to i-1.
    plan: Vec<usize>,
}

impl Bt<'_> {
    /// One visit to boat i; false means no slot is left, so the caller goes on with i-1's next.
    fn visit(&mut self, i: usize) -> Result<bool, Stop> {
        if i == self.harbour.boats() {
            return Ok(true);
        }
        for slot in 0..self.harbour.slots(i) {
            self.counter.trial()?;
            if !self.passes_all(i, slot)? {
                continue;
            }
            self.plan.push(slot);
            if self.visit(i + 1)? {
                return Ok(true);
            }
            self.plan.pop();
        }
        Ok(false)
    }

    fn passes_all(&mut self, i: usize, slot: usize) -> Result<bool, Stop> {
        for h in 0..i {
            if !self.counter.passes(self.harbour, (h, self.plan[h]), (i, slot))? {
                return Ok(false);
            }
        }
        Ok(true)
    }
}
