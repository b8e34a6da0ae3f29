//! Brute force for small tables: every plan in order, asked with the plan question.

use crate::answer::Refusal;
use crate::examine::examine;
use crate::plans::lawful;
use crate::tables::Tables;

/// The first lawful plan, or none.
pub fn first_lawful_plan(tables: &Tables) -> Result<Option<Vec<u8>>, Refusal> {
    examine(tables)?;
    let mut plan = vec![0; tables.boats()];
    loop {
        if lawful(tables, &plan)? {
            return Ok(Some(plan));
        }
        if !step(&mut plan, &tables.sizes) {
            return Ok(None);
        }
    }
}

/// The next plan in order: the last boat changes fastest; false after the last plan.
fn step(plan: &mut [u8], sizes: &[u8]) -> bool {
    for boat in (0..plan.len()).rev() {
        plan[boat] += 1;
        if plan[boat] < sizes[boat] {
            return true;
        }
        plan[boat] = 0;
    }
    false
}
