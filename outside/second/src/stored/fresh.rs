//! Tables of one kind from any seed, asked all that the stored set asks.

use super::sets::{of_kind, of_spoiled};
use super::{files, Group};
use crate::random::Random;
use crate::shapes::KINDS;

/// So many tables of a kind; of bad ones, so many for each finding. None if the kind isn't known.
pub fn fresh(kind: &str, seed: u64, count: usize) -> Option<Vec<Group>> {
    let mut groups = match kind {
        "bad" => of_spoiled(seed, count),
        _ if KINDS.contains(&kind) => of_kind(kind, seed, count),
        _ => return None,
    };
    // Not the numbers that the tables were drawn from.
    files::ask_many(&mut Random::new(!seed), &mut groups);
    Some(groups)
}
