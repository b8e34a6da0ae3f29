//! BM: backmarking.

use super::Found;
use crate::counter::{Counter, Stop};
use crate::harbour::Harbour;

pub fn search(harbour: &Harbour, counter: &mut Counter) -> Found {
    let boats = harbour.boats();
    let mark = (0..boats).map(|boat| vec![0; harbour.slots(boat)]).collect();
    let mut bm = Bm { harbour, counter, plan: Vec::new(), mark, b: vec![0; boats] };
    let solved = bm.visit(0)?;
    Ok(solved.then_some(bm.plan))
}

struct Bm<'a> {
    harbour: &'a Harbour,
    counter: &'a mut Counter,
    /// Slots of the placed boats 0 to i-1.
    plan: Vec<usize>,
    /// m of the document: for each boat and slot, the last boat looked at.
    mark: Vec<Vec<usize>>,
    /// b of the document: the lowest boat placed anew since boat i was last left.
    b: Vec<usize>,
}

impl Bm<'_> {
    fn visit(&mut self, i: usize) -> Result<bool, Stop> {
        if i == self.harbour.boats() {
            return Ok(true);
        }
        for slot in 0..self.harbour.slots(i) {
            self.counter.trial()?;
            if !self.passes_marked(i, slot)? {
                continue;
            }
            self.plan.push(slot);
            if self.visit(i + 1)? {
                return Ok(true);
            }
            self.plan.pop();
        }
        self.go_back_from(i);
        Ok(false)
    }

    fn passes_marked(&mut self, i: usize, slot: usize) -> Result<bool, Stop> {
        if self.mark[i][slot] < self.b[i] {
            return Ok(false);
        }
        for h in self.b[i]..i {
            // Marked before the look, so that unlisted boats and the failing one count as looked at.
            self.mark[i][slot] = h;
            if !self.counter.passes(self.harbour, (h, self.plan[h]), (i, slot))? {
                return Ok(false);
            }
        }
        Ok(true)
    }

    /// From boat 0 there is no going back, and so nothing to set.
    fn go_back_from(&mut self, i: usize) {
        if i == 0 {
            return;
        }
        self.b[i] = i - 1;
        for j in i + 1..self.harbour.boats() {
            self.b[j] = self.b[j].min(i - 1);
        }
    }
}
