//! Which runs are asked for: methods, allowances, and lengths of the lent memory.

use std::collections::BTreeSet;

use super::lines::reply_to;
use super::{Question, Terms};
use crate::allowances::allowances;
use crate::answer::Reply;
use crate::problem::Problem;
use crate::random::Random;
use crate::tables::{Tables, WORKING_WORDS};

const AMPLE: u64 = u64::MAX;

fn run(method: u64, allowed: (u64, u64), lent: (usize, usize)) -> Question {
    Question::Run(Terms::new(method, allowed, lent))
}

/// Memory that is enough, and now and then more than that.
fn enough(random: &mut Random, tables: &Tables) -> (usize, usize) {
    let plan_len = tables.boats() + random.one_of(&[0, 0, 1, 64]);
    (plan_len, WORKING_WORDS + random.one_of(&[0, 0, 1, 1000]))
}

/// Every count at which a run can be cut, alone and as both allowances: this tells the order of its
/// trials and checks. Then what is exact for each method, since the others must not need more or
/// may run out.
pub fn every_cut(random: &mut Random, tables: &Tables) -> Vec<Question> {
    let exact: Vec<(u64, u64)> = (1..=5).map(|method| exact(method, tables)).collect();
    let each: BTreeSet<(u64, u64)> = exact.iter().copied().collect();
    let mut questions = Vec::new();
    for method in 1..=5 {
        let (checks, trials) = exact[method as usize - 1];
        let mut list = vec![(AMPLE, AMPLE)];
        list.extend((0..checks).map(|allowed| (allowed, AMPLE)));
        list.extend((0..trials).map(|allowed| (AMPLE, allowed)));
        list.extend((0..checks.max(trials)).map(|allowed| (allowed, allowed)));
        list.extend(&each);
        questions.extend(list.into_iter().map(|allowed| run(method, allowed, enough(random, tables))));
    }
    questions
}

/// The counts of a run that nothing cuts.
fn exact(method: u64, tables: &Tables) -> (u64, u64) {
    let ample = Terms::new(method, (AMPLE, AMPLE), (tables.boats(), WORKING_WORDS));
    let Reply { checks, trials, .. } = reply_to(tables, &ample);
    (checks, trials)
}

/// Ample, exact, one less than exact, none, and random smaller allowances, by every method.
pub fn some_cuts(random: &mut Random, tables: &Tables, cap: u64) -> Vec<Question> {
    let mut questions = Vec::new();
    for method in 1..=5 {
        let (plan_len, work_len) = (tables.boats(), WORKING_WORDS);
        let (checks_allowed, trials_allowed, tables) = (AMPLE, AMPLE, tables.clone());
        let problem = Problem { method, checks_allowed, trials_allowed, plan_len, work_len, tables };
        for allowed in allowances(random, &problem, cap) {
            questions.push(run(method, allowed, enough(random, &problem.tables)));
        }
    }
    questions
}

/// One byte or one word too few, and both, by every method.
pub fn short_memory(tables: &Tables) -> Vec<Question> {
    let (plan_len, work_len) = (tables.boats(), WORKING_WORDS);
    let less_plan = plan_len.saturating_sub(1);
    let mut questions = Vec::new();
    for method in 1..=5 {
        for lent in [(less_plan, work_len), (plan_len, work_len - 1), (less_plan, work_len - 1)] {
            questions.push(run(method, (AMPLE, AMPLE), lent));
        }
    }
    questions
}

/// Tables as they are, by every method.
pub fn plainly(tables: &Tables) -> Vec<Question> {
    let lent = (tables.boats(), WORKING_WORDS);
    (1..=5).map(|method| run(method, (AMPLE, AMPLE), lent)).collect()
}

/// Tables with every set of the numbers 1, 8 and 9.
pub fn every_set(random: &mut Random, tables: &Tables) -> Vec<Question> {
    let boats = tables.boats();
    let mut questions = Vec::new();
    for set in 0..1 << 3 {
        let method = if set & 1 == 1 { random.one_of(&[0, 6]) } else { random.between(1, 5) };
        let plan_len = if set & 2 == 2 { boats - 1 } else { boats };
        let work_len = if set & 4 == 4 { WORKING_WORDS - 1 } else { WORKING_WORDS };
        questions.push(run(method, (AMPLE, AMPLE), (plan_len, work_len)));
    }
    questions
}

/// A spoiled problem by every method, then with no method and less memory, also with nothing allowed.
pub fn worse(random: &mut Random, problem: &Problem) -> Vec<Question> {
    let (ample, none) = ((AMPLE, AMPLE), (0, 0));
    let (plan_len, work_len) = (problem.plan_len, problem.work_len);
    let methods = match problem.method {
        1..=5 => 1..=5,
        wrong => wrong..=wrong,
    };
    let mut questions: Vec<_> = methods.map(|method| run(method, ample, (plan_len, work_len))).collect();
    let no_method = random.one_of(&[0, 6, 257, 1 << 32 | 1, AMPLE]);
    let less_plan = random.index(problem.tables.boats().max(1));
    let less_work = random.one_of(&[0, 1, 64, WORKING_WORDS - 1]);
    let method = random.between(1, 5);
    questions.push(run(no_method, ample, (plan_len, work_len)));
    questions.push(run(method, ample, (less_plan, work_len)));
    questions.push(run(method, ample, (plan_len, less_work)));
    questions.push(run(method, none, (less_plan, less_work)));
    questions.push(run(method, none, (plan_len, work_len)));
    questions.push(run(no_method, none, (less_plan, less_work)));
    questions
}
