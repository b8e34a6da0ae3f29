//! The two questions about a given plan: is it lawful, and which pair does it break first.

use crate::answer::{refuse, Refusal};
use crate::examine::examine;
use crate::tables::Tables;

pub fn lawful(tables: &Tables, plan: &[u8]) -> Result<bool, Refusal> {
    Ok(first_broken_pair(tables, plan)?.is_none())
}

pub fn first_broken_pair(tables: &Tables, plan: &[u8]) -> Result<Option<usize>, Refusal> {
    examine(tables)?;
    examine_plan(tables, plan)?;
    let mut start = 0;
    for (index, (lower, higher)) in tables.listed_pairs().enumerate() {
        let row = tables.rows[start + plan[lower] as usize];
        if row >> plan[higher] & 1 == 0 {
            return Ok(Some(index));
        }
        start += tables.sizes[lower] as usize;
    }
    Ok(None)
}

fn examine_plan(tables: &Tables, plan: &[u8]) -> Result<(), Refusal> {
    if plan.len() != tables.boats() {
        return refuse(10, 0);
    }
    for (boat, (&slot, &size)) in plan.iter().zip(&tables.sizes).enumerate() {
        if slot >= size {
            return refuse(11, boat);
        }
    }
    Ok(())
}
