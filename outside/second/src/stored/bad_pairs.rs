//! Four boats with bad pairs, numbers 51 to 54: each alone, several in one pair, several pairs, and with
//! the numbers tested before and after them.

use super::faults::rows_to_fit;
use crate::tables::{Tables, MOST_PAIRS};

const SOUND: [u8; 2] = [1, 2];

/// A pair of which 51 alone speaks, then 52, 53 and 54; after `SOUND`, and all but the last also first.
const BAD: [[u8; 2]; 4] = [[1, 4], [2, 2], [2, 1], [0, 3]];

/// The same after each pair of `BAD`.
const BAD_AFTER: [[u8; 2]; 4] = [[2, 4], [3, 3], [3, 2], [0, 1]];

/// Nothing is wrong with this one after each pair of `BAD`.
const SOUND_AFTER: [u8; 2] = [2, 3];

pub fn all() -> Vec<Tables> {
    let mut all = any_pair();
    all.extend(two_pairs());
    all.extend(odd_bytes());
    all.extend(too_many_bytes());
    all.extend(bad_rows());
    all
}

/// Each of the four alone: second in the list, and first where it can be.
fn alone() -> Vec<Vec<u8>> {
    let second = BAD.iter().map(|bad| [SOUND, *bad].concat());
    let first = BAD[..3].iter().map(|bad| bad.to_vec());
    second.chain(first).collect()
}

/// Every pair of the bytes 0 to 5, first in the list and after 1-3.
fn any_pair() -> Vec<Tables> {
    let pairs = (0..6).flat_map(|one| (0..6).map(move |other| [one, other]));
    pairs.flat_map(|pair| [rows_to_fit(&pair), rows_to_fit(&[[1, 3], pair].concat())]).collect()
}

/// Each of the four, and right after it a sound pair or each of the four.
fn two_pairs() -> Vec<Tables> {
    let mut all = Vec::new();
    for bad in alone() {
        for after in [SOUND_AFTER].iter().chain(&BAD_AFTER) {
            all.push(rows_to_fit(&[&bad[..], after].concat()));
        }
    }
    all
}

fn odd_bytes() -> Vec<Tables> {
    alone().iter().map(|bad| rows_to_fit(&[&bad[..], &[3]].concat())).collect()
}

/// One pair too many; those after the bad one name no boat, and so take no rows.
fn too_many_bytes() -> Vec<Tables> {
    let filled = |bad: &[u8; 2]| {
        let mut pairs = [SOUND, *bad].concat();
        pairs.resize(2 * MOST_PAIRS + 2, 255);
        rows_to_fit(&pairs)
    };
    BAD.iter().map(filled).collect()
}

/// A row word too few, every word too wide, and every word too wide with one too many.
fn bad_rows() -> Vec<Tables> {
    let mut all = Vec::new();
    for bad in alone() {
        let mut too_few = rows_to_fit(&[&bad[..], &SOUND_AFTER].concat());
        let mut wide = too_few.clone();
        too_few.rows.pop();
        wide.rows.iter_mut().for_each(|word| *word |= 1 << 63);
        let too_many = Tables { rows: [&wide.rows[..], &[1 << 63]].concat(), ..wide.clone() };
        all.extend([too_few, wide, too_many]);
    }
    all
}
