//! Problems of a kind from a seed: each table under all five methods and many allowances.

use crate::allowances::allowances;
use crate::problem::Problem;
use crate::random::Random;
use crate::shapes::{random_tables, KINDS};
use crate::spoil::spoiled;
use crate::tables::{Tables, WORKING_WORDS};

/// Checks and trials beyond which a table isn't followed further.
fn cap_of(kind: &str) -> u64 {
    match kind {
        "wide" | "crowded" => 20_000,
        "full" | "bad" => 200_000,
        _ => 2_000_000,
    }
}

/// Hands exactly `count` problems to `take`; false for a kind that isn't known.
pub fn generate<E>(
    kind: &str,
    seed: u64,
    count: u64,
    mut take: impl FnMut(&Problem) -> Result<(), E>,
) -> Result<bool, E> {
    if kind != "bad" && !KINDS.contains(&kind) {
        return Ok(false);
    }
    let mut random = Random::new(seed);
    let mut made = 0;
    loop {
        for problem in one_table(&mut random, kind) {
            if made == count {
                return Ok(true);
            }
            take(&problem)?;
            made += 1;
        }
    }
}

/// All problems of the next table.
fn one_table(random: &mut Random, kind: &str) -> Vec<Problem> {
    let base = match random_tables(random, kind) {
        Some(tables) => framed(tables),
        None => spoiled(random),
    };
    // A wrong method number stays wrong; a right one gives way to all five.
    let methods: Vec<u64> = match base.method {
        1..=5 => (1..=5).collect(),
        wrong => vec![wrong],
    };
    let mut problems = Vec::new();
    for method in methods {
        let problem = Problem { method, ..base.clone() };
        for (checks_allowed, trials_allowed) in allowances(random, &problem, cap_of(kind)) {
            problems.push(Problem { checks_allowed, trials_allowed, ..problem.clone() });
        }
    }
    problems
}

/// Lent memory just long enough.
fn framed(tables: Tables) -> Problem {
    let (plan_len, work_len) = (tables.boats(), WORKING_WORDS);
    Problem { method: 1, checks_allowed: 0, trials_allowed: 0, plan_len, work_len, tables }
}
