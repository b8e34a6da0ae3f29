//! What is asked about the files of a group's tables: written, read back, the desk's question with the
//! group's own plans, and spoiled files.

use super::records::{longer, needed, records, shorter, Record};
use super::spoil::spoiled;
use crate::file::Lengths;
use crate::plans::lawful;
use crate::random::Random;
use crate::stored::{Group, Question};

/// Longer files are only written, and that in too little room.
const MOST_BYTES: usize = 20_000;

/// The stored set's longest file; most of those above `SHORT` are left out.
const MOST_STORED: usize = 2000;
const SHORT: usize = 90;

/// The most that the stored set lends of anything.
const MOST_LENT: usize = 400;

pub fn ask_many(random: &mut Random, groups: &mut [Group]) {
    for group in groups {
        let asked = many(random, group);
        group.questions.extend(asked);
    }
}

pub fn ask_few(random: &mut Random, groups: &mut [Group]) {
    for group in groups {
        let asked = few(random, group);
        group.questions.extend(asked.into_iter().filter(is_stored));
    }
}

fn many(random: &mut Random, group: &Group) -> Vec<Question> {
    let records = records(&group.tables);
    let file = records.concat();
    if file.len() > MOST_BYTES {
        return vec![Question::Write(random.index(70))];
    }
    let exact = needed(&file, Lengths::of(&group.tables));
    let mut asked: Vec<Question> = rooms(&file).map(Question::Write).into();
    for lent in [exact, longer(exact, 3), shorter(exact, random.index(7) + 1)] {
        asked.push(Question::File(file.clone(), lent));
    }
    for plan in plans(group) {
        asked.push(Question::Desk(file.clone(), plan.clone(), about(random, exact)));
    }
    for _ in 0..8 {
        asked.push(spoiled_read(random, &records, exact));
    }
    for _ in 0..3 {
        asked.push(spoiled_at_the_desk(random, group, &records, exact));
    }
    asked
}

/// One room and the file read back; for some tables the desk's question and spoiled files too.
fn few(random: &mut Random, group: &Group) -> Vec<Question> {
    let records = records(&group.tables);
    let file = records.concat();
    let exact = needed(&file, Lengths::of(&group.tables));
    let mut asked = vec![Question::Write(random.one_of(&rooms(&file)).min(MOST_LENT))];
    if file.len() > SHORT && random.chance(700) {
        return asked;
    }
    asked.push(Question::File(file.clone(), about(random, exact)));
    if random.chance(250) {
        let of_each = [true, false].map(|yes| plans(group).find(|plan| is_lawful(group, plan) == yes));
        let desk = |plan: &Vec<u8>| Question::Desk(file.clone(), plan.clone(), exact);
        asked.extend(of_each.into_iter().flatten().map(desk));
    }
    if random.chance(500) {
        asked.push(spoiled_read(random, &records, exact));
    }
    if random.chance(150) {
        asked.push(spoiled_at_the_desk(random, group, &records, exact));
    }
    asked
}

fn is_stored(question: &Question) -> bool {
    match question {
        Question::File(file, lent) | Question::Desk(file, _, lent) => {
            file.len() <= MOST_STORED && lent.sizes.max(lent.pairs).max(lent.rows) <= MOST_LENT
        }
        _ => true,
    }
}

/// A byte too few, exactly enough, and more.
fn rooms(file: &[u8]) -> [usize; 3] {
    [file.len() - 1, file.len(), file.len() + 3]
}

fn plans(group: &Group) -> impl Iterator<Item = &Vec<u8>> {
    group.questions.iter().filter_map(|question| match question {
        Question::Plan(plan) => Some(plan),
        _ => None,
    })
}

fn is_lawful(group: &Group, plan: &[u8]) -> bool {
    lawful(&group.tables, plan) == Ok(true)
}

/// Exactly enough or more; now and then one part or several too short by one.
fn about(random: &mut Random, exact: Lengths) -> Lengths {
    match random.between(0, 9) {
        0 => shorter(exact, random.index(7) + 1),
        1..=3 => longer(exact, random.index(3) + 1),
        _ => exact,
    }
}

fn spoiled_read(random: &mut Random, records: &[Record], exact: Lengths) -> Question {
    let file = spoiled(random, records);
    let lent = about(random, needed(&file, exact));
    Question::File(file, lent)
}

/// With one of the group's plans, or none.
fn spoiled_at_the_desk(random: &mut Random, group: &Group, records: &[Record], exact: Lengths) -> Question {
    let file = spoiled(random, records);
    let lent = about(random, needed(&file, exact));
    let all: Vec<&Vec<u8>> = plans(group).collect();
    let plan = if all.is_empty() { Vec::new() } else { random.one_of(&all).clone() };
    Question::Desk(file, plan, lent)
}
