//! Files as lists of records with their marks, so that records can be left out, doubled and exchanged.

use std::iter::repeat;

use crate::file::{ed, pr, read, sz, Lengths, ED, PR};
use crate::tables::Tables;

pub type Record = Vec<u8>;

/// The records of any tables, also of those that the writer refuses: at most 255 boats, an odd byte of
/// the pairs left out, a boat that doesn't exist of size 0, and 0 for a word that isn't there.
pub fn records(tables: &Tables) -> Vec<Record> {
    let sizes = &tables.sizes[..tables.boats().min(255)];
    let mut words = tables.rows.iter().copied().chain(repeat(0));
    let mut records = vec![sz(sizes)];
    for (lower, higher) in tables.listed_pairs() {
        let size = sizes.get(lower).copied().unwrap_or(0);
        let rows: Vec<u64> = words.by_ref().take(size.into()).collect();
        records.push(pr(lower as u8, higher as u8, &rows));
    }
    records.push(ed(tables.listed_pairs().count() as u16));
    records
}

/// The same records, each ED with the number of PRs before it.
pub fn counted(records: &[Record]) -> Vec<Record> {
    let mut pairs = 0;
    let mut counted = records.to_vec();
    for record in &mut counted {
        pairs += u16::from(record.starts_with(&PR));
        if record.starts_with(&ED) {
            *record = ed(pairs);
        }
    }
    counted
}

/// What a file needs; for one that the reader refuses, what is told.
pub fn needed(file: &[u8], otherwise: Lengths) -> Lengths {
    read(file).map_or(otherwise, |tables| Lengths::of(&tables))
}

/// Every part longer by so much.
pub fn longer(lent: Lengths, more: usize) -> Lengths {
    Lengths { sizes: lent.sizes + more, pairs: lent.pairs + more, rows: lent.rows + more }
}

/// The parts of a set (1 sizes, 2 pairs, 4 rows) shorter by one.
pub fn shorter(lent: Lengths, set: usize) -> Lengths {
    let less = |length: usize, part: usize| length.saturating_sub(usize::from(set & part == part));
    Lengths { sizes: less(lent.sizes, 1), pairs: less(lent.pairs, 2), rows: less(lent.rows, 4) }
}
