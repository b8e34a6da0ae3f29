//! Tables with chosen faults: every set of the examination's tests at once, and each kind of fault alone.
//! Which way a pair can be bad is told in bad_pairs.rs.

use super::by_hand::all_pairs;
use crate::tables::Tables;

/// Four boats, where each number of the examination can be brought about without another.
fn sound() -> Tables {
    rows_to_fit(&[0, 1, 0, 2, 1, 2, 2, 3])
}

/// Four boats with these pairs, and all their rows with every bit that may be set. A byte that names no
/// boat counts as size 0.
pub fn rows_to_fit(pairs: &[u8]) -> Tables {
    let mut tables = Tables { sizes: vec![2, 3, 2, 1], pairs: pairs.to_vec(), rows: Vec::new() };
    let size = |boat: usize| tables.sizes.get(boat).copied().unwrap_or(0) as usize;
    let of_pair = |(lower, higher)| vec![(1 << size(higher)) - 1; size(lower)];
    tables.rows = tables.listed_pairs().flat_map(of_pair).collect();
    tables
}

/// One table for each set of the numbers 2, 3, 4, one of 51 to 54, 6 and 7, the empty set first.
pub fn sets() -> Vec<Tables> {
    (0..1 << 6).map(|set| with_faults(&numbers(set))).collect()
}

/// Which one of 51 to 54 stands in a set goes by the others in it, so that each of the four meets every
/// two of these: both, only one, only the other, neither.
fn numbers(set: u64) -> Vec<u64> {
    let odd = |bits: u64| u64::from((set & bits).count_ones() % 2);
    // Whether it has an odd number of 2, 3, 4, and of 4, 6, 7.
    let of_a_pair = 51 + 2 * odd(0b000_111) + odd(0b110_100);
    let all = [2, 3, 4, of_a_pair, 6, 7];
    (0..6).filter(|&bit| set >> bit & 1 == 1).map(|bit| all[bit]).collect()
}

fn with_faults(numbers: &[u64]) -> Tables {
    let has = |number: u64| numbers.contains(&number);
    let mut tables = sound();
    for (number, last_pair) in [(51, [2, 255]), (52, [2, 2]), (53, [2, 1]), (54, [1, 2])] {
        if has(number) {
            tables = rows_to_fit(&[&tables.pairs[..6], &last_pair].concat());
        }
    }
    if has(3) {
        tables.sizes[3] = 65;
    }
    if has(2) {
        tables.sizes.resize(65, 1);
    }
    if has(4) {
        tables.pairs.push(0);
    }
    if has(6) {
        tables.rows.push(1);
    }
    if has(7) {
        tables.rows[1] |= 1 << 3;
    }
    tables
}

/// Each kind of fault of sizes, pair bytes and rows.
pub fn kinds() -> Vec<Tables> {
    let mut all = sizes();
    all.extend(pair_bytes());
    all.extend(rows());
    all
}

fn sizes() -> Vec<Tables> {
    let lists: [&[u8]; 6] = [&[0], &[65], &[255], &[1, 64, 0, 65], &[64, 64, 128], &[1, 2, 3, 4, 0]];
    lists.iter().map(|sizes| Tables { sizes: sizes.to_vec(), ..Tables::default() }).collect()
}

/// One and three bytes, and one pair more than all pairs of 64 boats.
fn pair_bytes() -> Vec<Tables> {
    let lists = [vec![0], vec![0, 1, 0]];
    let mut all: Vec<Tables> = lists.into_iter().map(|pairs| Tables { pairs, ..sound() }).collect();
    let mut most = Tables { sizes: vec![1; 64], pairs: all_pairs(), ..Tables::default() };
    most.pairs.extend([62, 63]);
    most.rows = vec![1; most.pairs.len() / 2];
    all.push(most);
    all
}

/// A word too few, too many, or none; and bits just past a size, at the top, and in several words.
fn rows() -> Vec<Tables> {
    let sound = sound();
    let last = sound.rows.len() - 1;
    let mut all = vec![
        Tables { rows: sound.rows[..last].to_vec(), ..sound.clone() },
        Tables { rows: [&sound.rows[..], &[0]].concat(), ..sound.clone() },
        Tables { rows: Vec::new(), ..sound.clone() },
        Tables { rows: vec![1], ..Tables::default() },
    ];
    let bits: [&[(usize, u32)]; 5] =
        [&[(0, 3)], &[(2, 2)], &[(last, 1)], &[(last, 63)], &[(7, 1), (4, 63), (5, 2)]];
    for several in bits {
        let mut tables = sound.clone();
        several.iter().for_each(|&(word, bit)| tables.rows[word] |= 1 << bit);
        all.push(tables);
    }
    all
}
