//! Broken input: a good problem with several faults put in at once.

use crate::problem::Problem;
use crate::random::Random;
use crate::shapes::random_tables;
use crate::tables::{Tables, MOST_PAIRS, WORKING_WORDS};

/// No fault, so that the limits themselves are seen to pass, up to four faults.
pub fn spoiled(random: &mut Random) -> Problem {
    let tables = sound_tables(random);
    let mut problem = Problem {
        method: random.between(1, 5),
        checks_allowed: 0,
        trials_allowed: 0,
        plan_len: tables.boats() + random.one_of(&[0, 0, 1, 64]),
        work_len: WORKING_WORDS + random.one_of(&[0, 0, 1, 1000]),
        tables,
    };
    for _ in 0..random.between(0, 4) {
        match random.between(0, 12) {
            0 | 1 => spoil_sizes(random, &mut problem.tables),
            2..=6 => spoil_pairs(random, &mut problem.tables),
            7..=9 => spoil_rows(random, &mut problem.tables),
            10 => problem.method = random.one_of(&[0, 6, 7, 255, 257, (1 << 32) + 1, u64::MAX]),
            11 => problem.plan_len = random.index(problem.tables.boats().max(1)),
            _ => problem.work_len = random.one_of(&[0, 1, 64, 4096, WORKING_WORDS - 1]),
        }
    }
    problem
}

fn sound_tables(random: &mut Random) -> Tables {
    match random.between(0, 19) {
        0 => Tables::default(),
        1 => complete(64, 1),
        2 => Tables { sizes: vec![64; 64], ..Tables::default() },
        3 => complete(3, 64),
        4..=7 => random_tables(random, "tiny").unwrap_or_default(),
        _ => random_tables(random, "small").unwrap_or_default(),
    }
}

/// All pairs listed and everything allowed.
fn complete(boats: u8, size: u8) -> Tables {
    let mut tables = Tables { sizes: vec![size; boats as usize], ..Tables::default() };
    for lower in 0..boats {
        for higher in lower + 1..boats {
            tables.pairs.extend([lower, higher]);
            tables.rows.extend(vec![u64::MAX >> (64 - size); size as usize]);
        }
    }
    tables
}

fn spoil_sizes(random: &mut Random, tables: &mut Tables) {
    if tables.sizes.is_empty() || random.chance(200) {
        let boats = random.one_of(&[65, 65, 66, 128, 255, 256, 257, 300]);
        tables.sizes.resize(boats, random.one_of(&[1, 1, 2, 64, 0]));
        return;
    }
    let boat = random.index(tables.sizes.len());
    tables.sizes[boat] = random.one_of(&[0, 65, 255, 64, 128]);
}

/// One faulty pair or several.
fn spoil_pairs(random: &mut Random, tables: &mut Tables) {
    let listed = tables.pairs.len() / 2;
    if listed == 0 || random.chance(200) {
        return spoil_pair_bytes(random, tables);
    }
    for _ in 0..random.one_of(&[1, 1, 1, 2, 3]) {
        let pair = random.index(listed);
        spoil_pair(random, tables, 2 * pair);
    }
}

/// The pair at this byte names no boat, in either byte or both; names one boat twice; is turned; is
/// exchanged with another; or itself, or one listed before it, is listed right after it, and there now
/// and then has a fault of its own.
fn spoil_pair(random: &mut Random, tables: &mut Tables, first: usize) {
    let no_boat = random.one_of(&[tables.boats() as u8, 64, 65, 255]);
    match random.between(0, 8) {
        0 => tables.pairs[first] = no_boat,
        1 => tables.pairs[first + 1] = no_boat,
        2 => tables.pairs[first..first + 2].fill(no_boat),
        3 => tables.pairs[first + 1] = tables.pairs[first],
        4 => tables.pairs.swap(first, first + 1),
        5 | 6 => {
            list_again(tables, 2 * random.index(first / 2 + 1), first);
            if random.chance(500) {
                spoil_pair(random, tables, first + 2);
            }
        }
        7 => exchange(tables, first, 2 * random.index(tables.pairs.len() / 2)),
        _ => tables.pairs[first + random.index(2)] = random.between(0, 5) as u8,
    }
}

/// The pair at one byte once more, right after the pair at another.
fn list_again(tables: &mut Tables, pair: usize, after: usize) {
    let again = [tables.pairs[pair], tables.pairs[pair + 1]];
    tables.pairs.splice(after + 2..after + 2, again);
}

fn exchange(tables: &mut Tables, pair: usize, other: usize) {
    tables.pairs.swap(pair, other);
    tables.pairs.swap(pair + 1, other + 1);
}

/// Too few, odd in number, or too many; the bytes themselves may be anything.
fn spoil_pair_bytes(random: &mut Random, tables: &mut Tables) {
    let most = 2 * MOST_PAIRS;
    let length = match random.between(0, 4) {
        0 => 0,
        1 => random.one_of(&[most - 1, most, most + 1, most + 2, most + 3, 2 * most]),
        _ => tables.pairs.len() + random.one_of(&[1, 1, 1, 2, 3]),
    };
    tables.pairs.resize(length, random.one_of(&[0, 1, 2, 255]));
}

fn spoil_rows(random: &mut Random, tables: &mut Tables) {
    match random.between(0, 9) {
        0 => drop(tables.rows.pop()),
        1 => tables.rows.push(random.between(0, 1)),
        2 => tables.rows.clear(),
        3 => tables.rows.extend(vec![u64::MAX; 70]),
        _ => high_bits(random, tables),
    }
}

/// Bits near the small sizes, or anywhere up to the highest.
fn high_bits(random: &mut Random, tables: &mut Tables) {
    for _ in 0..random.between(1, 3) {
        if tables.rows.is_empty() {
            return;
        }
        let word = random.index(tables.rows.len());
        let bit = random.one_of(&[1, 2, 3, 4, 5, 31, 32, 62, 63]);
        tables.rows[word] |= 1 << bit;
    }
}
