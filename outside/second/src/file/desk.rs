//! The desk's question: is this plan lawful for the tables in this file.

use super::lent::{take, Lent};
use crate::answer::Refusal;
use crate::plans::lawful;

/// 0 yes, 1 no, 100 plus the number of a refusal.
pub fn desk(file: &[u8], plan: &[u8], lent: &mut Lent) -> u64 {
    match judge(file, plan, lent) {
        Ok(true) => 0,
        Ok(false) => 1,
        Err(refusal) => 100 + refusal.number,
    }
}

/// 21 to 25, 26, the examination, 10, 11.
fn judge(file: &[u8], plan: &[u8], lent: &mut Lent) -> Result<bool, Refusal> {
    let tables = take(file, lent)?;
    lawful(&tables, plan)
}
