//! Which plans and which pairs are asked about.

use super::lines::reply_to;
use super::{Question, Terms};
use crate::answer::Answer;
use crate::random::Random;
use crate::tables::{Tables, WORKING_WORDS};

/// The first lawful plan where it is found within the cap, plans beside it, random ones, and bad ones.
pub fn plans(random: &mut Random, tables: &Tables, cap: u64) -> Vec<Question> {
    let mut plans = vec![draw(random, tables), draw(random, tables)];
    let terms = Terms::new(5, (cap, cap), (tables.boats(), WORKING_WORDS));
    if let Answer::Solved(plan) = reply_to(tables, &terms).answer {
        plans.push(beside(random, tables, &plan));
        plans.push(plan);
    }
    plans.extend(bad_plans(random, tables));
    plans.into_iter().map(Question::Plan).collect()
}

fn draw(random: &mut Random, tables: &Tables) -> Vec<u8> {
    tables.sizes.iter().map(|&size| random.between(0, size.max(1) as u64 - 1) as u8).collect()
}

/// The same plan with another slot at one boat.
fn beside(random: &mut Random, tables: &Tables, plan: &[u8]) -> Vec<u8> {
    let mut plan = plan.to_vec();
    if !plan.is_empty() {
        let boat = random.index(plan.len());
        plan[boat] = random.between(0, tables.sizes[boat] as u64 - 1) as u8;
    }
    plan
}

/// Too long or too short with a bad slot in it, and two bad slots.
fn bad_plans(random: &mut Random, tables: &Tables) -> Vec<Vec<u8>> {
    let boats = tables.boats();
    let mut of_bad_length = draw(random, tables);
    of_bad_length.resize(random.one_of(&[0, boats.saturating_sub(1), boats + 1, boats + 1]), 255);
    let mut of_bad_slots = draw(random, tables);
    if boats > 0 {
        let (one, other) = (random.index(boats), random.index(boats));
        of_bad_slots[one] = tables.sizes[one];
        of_bad_slots[other] = random.one_of(&[tables.sizes[other], 64, 128, 255]);
        of_bad_length.iter_mut().take(1).for_each(|slot| *slot = 255);
    }
    vec![of_bad_length, of_bad_slots]
}

/// Listed pairs, any pair, a pair turned, and numbers that are those of a listed pair only when cut short.
pub fn rows(random: &mut Random, tables: &Tables) -> Vec<Question> {
    let boats = tables.boats();
    let mut asked = vec![(0, boats), (boats, boats + 1), (usize::MAX, 0)];
    if boats > 0 {
        asked.push((random.index(boats), random.index(boats)));
    }
    let listed: Vec<(usize, usize)> = tables.listed_pairs().collect();
    if let Some(&last) = listed.last() {
        let (lower, higher) = random.one_of(&listed);
        let wider = random.one_of(&[256, 1 << 16, 1 << 32]);
        asked.extend([last, (lower, higher), (higher, lower), (lower, lower)]);
        asked.extend([(lower + wider, higher), (lower, higher + wider)]);
    }
    asked.into_iter().map(|(lower, higher)| Question::Rows(lower, higher)).collect()
}
