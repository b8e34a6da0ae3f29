//! Which tables are in the stored set; the seeds stand here, so that the set is always the same.

use super::{bad_pairs, by_hand, faults, files, plans, runs, Group, Question};
use crate::examine::examine;
use crate::random::Random;
use crate::shapes::random_tables;
use crate::spoil::spoiled;
use crate::tables::Tables;
use crate::vectors::{further_cases, harbour_cases, Case};

/// Checks and trials beyond which a run isn't followed.
const CAP: u64 = 100_000;

/// Kind, seed, and how many tables.
const KINDS: [(&str, u64, usize); 7] = [
    ("tiny", 1, 40),
    ("small", 2, 24),
    ("phase", 3, 4),
    ("sparse", 4, 6),
    ("dense", 5, 4),
    ("wide", 6, 8),
    ("crowded", 7, 2),
];

const FAULTS: u64 = 9;

/// Seed of what is asked about the files of all these tables.
const FILES: u64 = 11;

/// Seed, and how many spoiled tables for each finding of the examination and for none.
const SPOILED: (u64, usize) = (10, 12);

/// No finding, and the examination's numbers.
const FINDINGS: [u64; 10] = [0, 2, 3, 4, 51, 52, 53, 54, 6, 7];

pub fn groups() -> Vec<Group> {
    let mut groups = cases();
    groups.extend(by_hand::groups());
    for (kind, seed, count) in KINDS {
        groups.extend(of_kind(kind, seed, count));
    }
    groups.extend(of_faults());
    groups.extend(of_spoiled(SPOILED.0, SPOILED.1));
    files::ask_few(&mut Random::new(FILES), &mut groups);
    groups.extend(by_hand::file_groups());
    groups
}

fn cases() -> Vec<Group> {
    let mut random = Random::new(0);
    let asked = |random: &mut Random, tables: &Tables| {
        let mut questions = runs::every_cut(random, tables);
        questions.extend(runs::short_memory(tables));
        questions
    };
    let cases = harbour_cases().into_iter().chain(further_cases());
    let of_case = |case: Case| {
        let (name, named) = (case.name.to_string(), by_hand::of_case(case.name));
        Group { name, named, ..group(&mut random, case.tables, asked) }
    };
    cases.map(of_case).collect()
}

pub(super) fn of_kind(kind: &str, seed: u64, count: usize) -> Vec<Group> {
    let mut random = Random::new(seed);
    let mut groups = Vec::new();
    while groups.len() < count {
        let tables = random_tables(&mut random, kind).unwrap_or_default();
        groups.push(group(&mut random, tables, |random, tables| runs::some_cuts(random, tables, CAP)));
    }
    groups
}

fn of_faults() -> Vec<Group> {
    let mut random = Random::new(FAULTS);
    let mut groups = Vec::new();
    for tables in faults::sets() {
        groups.push(group(&mut random, tables, runs::every_set));
    }
    for tables in faults::kinds().into_iter().chain(bad_pairs::all()) {
        groups.push(group(&mut random, tables, |_, tables| runs::plainly(tables)));
    }
    groups
}

/// Drawn until each finding has its tables; what is drawn beyond that is left out.
pub(super) fn of_spoiled(seed: u64, count: usize) -> Vec<Group> {
    let mut random = Random::new(seed);
    let mut taken: Vec<u64> = Vec::new();
    let mut groups = Vec::new();
    while taken.len() < FINDINGS.len() * count {
        let problem = spoiled(&mut random);
        let finding = examine(&problem.tables).map_or_else(|refusal| refusal.number, |()| 0);
        if taken.iter().filter(|&&number| number == finding).count() == count {
            continue;
        }
        taken.push(finding);
        let asked = |random: &mut Random, _: &Tables| runs::worse(random, &problem);
        groups.push(group(&mut random, problem.tables.clone(), asked));
    }
    groups
}

fn group(
    random: &mut Random,
    tables: Tables,
    asked: impl Fn(&mut Random, &Tables) -> Vec<Question>,
) -> Group {
    let mut questions = asked(random, &tables);
    questions.extend(plans::plans(random, &tables, CAP));
    questions.extend(plans::rows(random, &tables));
    Group { name: String::new(), tables, named: Vec::new(), questions }
}
