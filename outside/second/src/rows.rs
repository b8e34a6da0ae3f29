//! Where a pair's rows stand in the caller's own words.

use crate::examine::examine;
use crate::tables::Tables;

/// Start and end of the rows of a listed pair; (0, 0) for everything else.
pub fn rows_of_pair(tables: &Tables, lower: usize, higher: usize) -> (usize, usize) {
    if examine(tables).is_err() {
        return (0, 0);
    }
    let mut start = 0;
    for listed in tables.listed_pairs() {
        let end = start + tables.sizes[listed.0] as usize;
        // Examined pairs are in range and the right way round, so equality is enough.
        if listed == (lower, higher) {
            return (start, end);
        }
        start = end;
    }
    (0, 0)
}
