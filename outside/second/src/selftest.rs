//! The program against itself: brute force, the methods' order, and smaller allowances.

use crate::answer::{Answer, Reply};
use crate::brute::first_lawful_plan;
use crate::problem::Problem;
use crate::random::Random;
use crate::run::run;
use crate::shapes::random_tables;
use crate::tables::{Tables, WORKING_WORDS};

#[derive(Default)]
pub struct Tally {
    pub tables: u64,
    pub with_plan: u64,
    pub comparisons: u64,
    pub differed: u64,
    /// The first few problems that differed, with what was compared.
    pub examples: Vec<String>,
}

pub fn selftest(seed: u64, count: u64) -> Tally {
    let mut random = Random::new(seed);
    let mut tally = Tally::default();
    for number in 0..count {
        let kind = if number % 2 == 0 { "tiny" } else { "small" };
        let tables = random_tables(&mut random, kind).unwrap_or_default();
        one_table(&mut random, &tables, &mut tally);
        tally.tables += 1;
    }
    tally
}

fn one_table(random: &mut Random, tables: &Tables, tally: &mut Tally) {
    let truth = match first_lawful_plan(tables) {
        Ok(Some(plan)) => Answer::Solved(plan),
        Ok(None) => Answer::NoPlan,
        Err(refusal) => Answer::Refused(refusal),
    };
    tally.with_plan += u64::from(matches!(truth, Answer::Solved(_)));
    let ample: Vec<Reply> = (1..=5).map(|method| under(method, tables, u64::MAX, u64::MAX)).collect();
    for (reply, method) in ample.iter().zip(1..) {
        tally.compare(reply.answer == truth, "brute force", method, tables);
        cuts(random, method, tables, reply, tally);
    }
    order(&ample, tables, tally);
}

/// CBJ and BM never above BT, FC-CBJ never above FC; BM makes exactly BT's trials.
fn order(ample: &[Reply], tables: &Tables, tally: &mut Tally) {
    let [bt, cbj, bm, fc, fc_cbj] = ample else {
        unreachable!("five methods");
    };
    let not_above = |low: &Reply, high: &Reply| low.checks <= high.checks && low.trials <= high.trials;
    tally.compare(not_above(cbj, bt), "CBJ above BT", 2, tables);
    tally.compare(not_above(bm, bt), "BM above BT", 3, tables);
    tally.compare(bm.trials == bt.trials, "BM trials not BT's", 3, tables);
    tally.compare(not_above(fc_cbj, fc), "FC-CBJ above FC", 5, tables);
}

fn cuts(random: &mut Random, method: u64, tables: &Tables, ample: &Reply, tally: &mut Tally) {
    let (checks, trials) = (ample.checks, ample.trials);
    let mut list = vec![(checks, trials), (0, 0)];
    list.push((checks.saturating_sub(1), trials));
    list.push((checks, trials.saturating_sub(1)));
    list.push((checks.saturating_sub(1), trials.saturating_sub(1)));
    for _ in 0..3 {
        list.push((random.between(0, checks + 1), random.between(0, trials + 1)));
    }
    for allowed in list {
        cut(method, tables, ample, allowed, tally);
    }
}

/// One pair of allowances: each alone, then both, against the ample run.
fn cut(method: u64, tables: &Tables, ample: &Reply, (checks, trials): (u64, u64), tally: &mut Tally) {
    let by_checks = under(method, tables, checks, u64::MAX);
    let by_trials = under(method, tables, u64::MAX, trials);
    let both = under(method, tables, checks, trials);
    tally.compare(checks_alone(&by_checks, ample, checks), "checks alone", method, tables);
    tally.compare(trials_alone(&by_trials, ample, trials), "trials alone", method, tables);
    let too_small = ample.checks > checks || ample.trials > trials;
    tally.compare(both.undecided() == too_small, "undecided when it fits or not", method, tables);
    // Whichever stop comes first in the one sequence of events is the stop of both together.
    let checks_first = by_checks.undecided() && by_checks.trials <= trials;
    let due = if checks_first { by_checks } else { by_trials };
    tally.compare(both == due, "both allowances", method, tables);
}

fn checks_alone(cut: &Reply, ample: &Reply, checks: u64) -> bool {
    if ample.checks <= checks {
        return cut == ample;
    }
    cut.answer == Answer::UndecidedByChecks && cut.checks == checks && cut.trials <= ample.trials
}

fn trials_alone(cut: &Reply, ample: &Reply, trials: u64) -> bool {
    if ample.trials <= trials {
        return cut == ample;
    }
    cut.answer == Answer::UndecidedByTrials && cut.trials == trials && cut.checks <= ample.checks
}

fn under(method: u64, tables: &Tables, checks: u64, trials: u64) -> Reply {
    run(method, tables, tables.boats(), WORKING_WORDS, checks, trials)
}

impl Tally {
    fn compare(&mut self, agrees: bool, what: &str, method: u64, tables: &Tables) {
        self.comparisons += 1;
        if agrees {
            return;
        }
        self.differed += 1;
        if self.examples.len() < 10 {
            let (checks_allowed, trials_allowed) = (u64::MAX, u64::MAX);
            let (plan_len, work_len) = (tables.boats(), WORKING_WORDS);
            let tables = tables.clone();
            let problem = Problem { method, checks_allowed, trials_allowed, plan_len, work_len, tables };
            self.examples.push(format!("{what}: {}", problem.line()));
        }
    }
}
