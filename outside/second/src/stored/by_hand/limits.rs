//! The limits together: 64 boats, all 2,016 pairs, 129,024 row words; and one past each. Boats have
//! size 64 only where the number of row words or a row's bits tell; elsewhere size 1 keeps lines short.

use super::{group, Group};
use crate::tables::{MOST_BOATS, MOST_PAIRS};

const MOST_WORDS: usize = 64 * MOST_PAIRS;

pub fn groups() -> Vec<Group> {
    let mut groups = of_size_64();
    groups.extend(of_size_1());
    groups
}

/// All pairs of 64 boats.
pub fn all_pairs() -> Vec<u8> {
    let boats = MOST_BOATS as u8;
    (0..boats).flat_map(|lower| (lower + 1..boats).flat_map(move |higher| [lower, higher])).collect()
}

fn of_size_64() -> Vec<Group> {
    let of = |name: &str, words: usize| group(name, &[64; 64], &all_pairs(), &first_and_last(words), vec![]);
    // The rows of 0-1 to 0-63 with every bit set: only boat 63 has no slot 63.
    let (pairs, rows) = (&all_pairs()[..2 * 63], [u64::MAX; 64 * 63]);
    vec![
        of("64 boats, 2016 pairs, 129024 row words", MOST_WORDS),
        of("129025 row words", MOST_WORDS + 1),
        of("129023 row words", MOST_WORDS - 1),
        group("the last boat of size 63", &last_of(64, 63), pairs, &rows, vec![]),
    ]
}

/// Every bit of the first word and of the last, and no other.
fn first_and_last(words: usize) -> Vec<u64> {
    let mut rows = vec![0; words];
    (rows[0], rows[words - 1]) = (u64::MAX, u64::MAX);
    rows
}

fn of_size_1() -> Vec<Group> {
    let rows = [1; MOST_PAIRS];
    let past = |more: &[u8]| [&all_pairs(), more].concat();
    let mut last_of_none = all_pairs();
    last_of_none[2 * MOST_PAIRS - 1] = MOST_BOATS as u8;
    vec![
        group("65 boats, 2016 pairs, 2016 row words", &[1; 65], &all_pairs(), &rows, vec![]),
        group("2016 pairs and a byte", &[1; 64], &past(&[0]), &rows, vec![]),
        group("2017 pairs", &[1; 64], &past(&[0, 0]), &rows, vec![]),
        group("2016 pairs, the last 62-64", &[1; 64], &last_of_none, &[], vec![]),
        group("the last boat of size 65", &last_of(1, 65), &all_pairs(), &rows, vec![]),
    ]
}

/// 64 boats of one size but for the last.
fn last_of(size: u8, last: u8) -> [u8; 64] {
    let mut sizes = [size; 64];
    sizes[63] = last;
    sizes
}
