//! The forward trial that FC and FC-CBJ share; putting back is keeping the board from before.

use std::collections::BTreeSet;

use crate::counter::{Counter, Stop};
use crate::harbour::Harbour;

#[derive(Clone)]
pub struct Board {
    /// live[boat][slot]; places at or above the boat's size are never live.
    live: Vec<[bool; 64]>,
    /// blamers[boat]: placed boats that struck at least one slot of it.
    blamers: Vec<BTreeSet<usize>>,
}

/// What a trial leads to: the board after its strikes, or the boat that it emptied.
pub enum Forward {
    Board(Board),
    Emptied(usize),
}

impl Board {
    pub fn full(harbour: &Harbour) -> Board {
        let boats = 0..harbour.boats();
        let live = boats.map(|boat| std::array::from_fn(|slot| slot < harbour.slots(boat)));
        Board { live: live.collect(), blamers: vec![BTreeSet::new(); harbour.boats()] }
    }

    pub fn is_live(&self, boat: usize, slot: usize) -> bool {
        self.live[boat][slot]
    }

    pub fn blamers(&self, boat: usize) -> &BTreeSet<usize> {
        &self.blamers[boat]
    }

    fn empty(&self, boat: usize) -> bool {
        !self.live[boat].contains(&true)
    }

    fn strike(&mut self, boat: usize, slot: usize, blamer: usize) {
        self.live[boat][slot] = false;
        self.blamers[boat].insert(blamer);
    }
}

/// The checks of a counted trial of `slot` at boat i, made on a copy of the board.
pub fn trial(
    harbour: &Harbour,
    counter: &mut Counter,
    before: &Board,
    (i, slot): (usize, usize),
) -> Result<Forward, Stop> {
    let mut board = before.clone();
    for j in i + 1..harbour.boats() {
        if !harbour.listed(i, j) {
            continue;
        }
        // Every live slot of j is checked, even when none can be left; only then is j judged.
        for j_slot in 0..harbour.slots(j) {
            if !board.is_live(j, j_slot) {
                continue;
            }
            counter.check()?;
            if !harbour.allows(i, slot, j, j_slot) {
                board.strike(j, j_slot, i);
            }
        }
        if board.empty(j) {
            return Ok(Forward::Emptied(j));
        }
    }
    Ok(Forward::Board(board))
}
