//! What was worked out by hand from the document, with the names that docs/DECISIONS.md cites.

mod cases;
mod examined;
mod files;
mod limits;
mod runs;

use super::{Group, Named, Question, Terms};
use crate::methods::NAMES;
use crate::tables::Tables;

pub use cases::of_case;
pub use files::groups as file_groups;
pub use limits::all_pairs;

const AMPLE: (u64, u64) = (u64::MAX, u64::MAX);

/// Both lengths are past what a run may write, so that a write too far shows.
const ROOMY: (usize, usize) = (72, 8200);

pub fn groups() -> Vec<Group> {
    let mut groups = examined::groups();
    groups.extend(limits::groups());
    groups.extend(runs::groups());
    groups
}

fn group(name: &str, sizes: &[u8], pairs: &[u8], rows: &[u64], named: Vec<Named>) -> Group {
    let tables = Tables { sizes: sizes.to_vec(), pairs: pairs.to_vec(), rows: rows.to_vec() };
    Group { name: name.to_string(), tables, named, questions: Vec::new() }
}

/// One run with ample allowances.
fn by(method: u64, name: &str, lent: (usize, usize)) -> Named {
    let told = match method {
        1..=5 => NAMES[method as usize - 1].to_string(),
        _ => format!("method {method}"),
    };
    (format!("{name}, {told}"), Question::Run(Terms::new(method, AMPLE, lent)))
}

/// The same run by every method.
fn by_all(name: &str, allowed: (u64, u64), lent: (usize, usize)) -> Vec<Named> {
    let run = |(method, told)| (format!("{name}, {told}"), Question::Run(Terms::new(method, allowed, lent)));
    (1..).zip(NAMES).map(run).collect()
}

fn plan(name: &str, slots: &[u8]) -> Named {
    (name.to_string(), Question::Plan(slots.to_vec()))
}

fn rows(name: &str, lower: usize, higher: usize) -> Named {
    (name.to_string(), Question::Rows(lower, higher))
}
