//! A few small good files, and every fault that is one step away from them.

use super::longest;
use super::records::{longer, needed, records};
use super::steps::{every_change, every_changed_end, every_cut, every_lent};
use super::steps::{every_mark, every_order, other_records};
use crate::brute::first_lawful_plan;
use crate::file::Lengths;
use crate::plans::lawful;
use crate::stored::{faults, Group, Question};
use crate::tables::Tables;
use crate::vectors::tables;

pub fn every_file() -> Vec<Group> {
    let mut groups: Vec<Group> = good().into_iter().map(about_one).collect();
    groups.push(of_files(every_mark().into_iter().chain(every_order()).collect()));
    groups.extend(faults::sets().into_iter().map(not_written));
    groups.extend(longest::groups());
    groups
}

/// The document's example first.
fn good() -> Vec<Tables> {
    let of_64: Vec<u64> = (0..64).map(|slot| slot % 8).collect();
    vec![
        tables(&[1, 1], &[(0, 1, &[1])]),
        Tables::default(),
        tables(&[3, 64, 1], &[]),
        tables(&[1, 64], &[(0, 1, &[0xF1E2_D3C4_B5A6_9788])]),
        tables(&[3, 1, 2], &[(0, 2, &[3, 1, 2]), (1, 2, &[2])]),
        tables(&[2, 1, 2], &[(0, 1, &[0, 1]), (0, 2, &[1, 2]), (1, 2, &[3])]),
        tables(&[64, 3], &[(0, 1, &of_64)]),
    ]
}

/// All that is asked about one good file.
fn about_one(tables: Tables) -> Group {
    let records = records(&tables);
    let (file, exact) = (records.concat(), Lengths::of(&tables));
    let plans = two_plans(&tables);
    let rooms = [0, 1, file.len() - 1, file.len(), file.len() + 1, file.len() + 3];
    let mut questions: Vec<Question> = rooms.map(Question::Write).into();
    for lent in every_lent(exact) {
        questions.extend(both_ways(&file, &[&plans[..], &bad_plans(&tables)].concat(), lent));
    }
    for cut in every_cut(&file) {
        questions.push(Question::File(cut.clone(), Lengths::default()));
        questions.extend(both_ways(&cut, &plans, exact));
    }
    for other in other_records(&records) {
        questions.push(Question::File(other.clone(), exact));
        questions.extend(both_ways(&other, &plans, longer(needed(&other, exact), 3)));
    }
    for (number, changed) in every_change(&file).into_iter().enumerate() {
        if number % 6 == 0 {
            questions.push(Question::Desk(changed.clone(), plans[number / 6 % 2].clone(), exact));
        }
        questions.push(Question::File(changed, longer(exact, number % 2)));
    }
    if file.len() <= 100 {
        questions.extend(every_changed_end(&file).into_iter().map(|end| Question::File(end, exact)));
    }
    Group { name: String::new(), tables, named: Vec::new(), questions }
}

/// The first lawful plan, and one with a slot changed that isn't lawful; where none is, the same again.
fn two_plans(tables: &Tables) -> [Vec<u8>; 2] {
    let Ok(Some(plan)) = first_lawful_plan(tables) else {
        unreachable!("each good file has a lawful plan");
    };
    let changed = changed_slots(tables, &plan).find(|other| lawful(tables, other) == Ok(false));
    [plan.clone(), changed.unwrap_or(plan)]
}

/// The plan with each boat in turn at each of its slots.
fn changed_slots<'a>(tables: &'a Tables, plan: &'a [u8]) -> impl Iterator<Item = Vec<u8>> + 'a {
    let one_boat = move |boat: usize| {
        (0..tables.sizes[boat]).map(move |slot| [&plan[..boat], &[slot], &plan[boat + 1..]].concat())
    };
    (0..plan.len()).flat_map(one_boat)
}

/// A slot too few, a slot too many, each boat at a slot that it doesn't have, and the last one so alone.
fn bad_plans(tables: &Tables) -> Vec<Vec<u8>> {
    let mut last = vec![0; tables.boats()];
    if let (Some(slot), Some(&size)) = (last.last_mut(), tables.sizes.last()) {
        *slot = size;
    }
    let too_few = vec![255; tables.boats().saturating_sub(1)];
    vec![too_few, vec![255; tables.boats() + 1], tables.sizes.clone(), last]
}

fn both_ways(file: &[u8], plans: &[Vec<u8>], lent: Lengths) -> Vec<Question> {
    let mut questions = vec![Question::File(file.to_vec(), lent)];
    questions.extend(plans.iter().map(|plan| Question::Desk(file.to_vec(), plan.clone(), lent)));
    questions
}

/// Files that are only read, with memory enough for each of them.
fn of_files(files: Vec<Vec<u8>>) -> Group {
    let lent = Lengths { sizes: 4, pairs: 10, rows: 5 };
    let questions = files.into_iter().map(|file| Question::File(file, lent)).collect();
    Group { name: String::new(), tables: Tables::default(), named: Vec::new(), questions }
}

/// Tables that the examination refuses, but for the first, are to be written with no room and with some.
fn not_written(tables: Tables) -> Group {
    let questions = vec![Question::Write(0), Question::Write(40)];
    Group { name: String::new(), tables, named: Vec::new(), questions }
}
