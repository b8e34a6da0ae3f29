//! A run: number 1, the examination, 8, 9, then the method under its allowances.

use crate::answer::{refuse, Answer, Refusal, Reply};
use crate::counter::{Counter, Stop};
use crate::examine::examine;
use crate::harbour::Harbour;
use crate::methods::{method_of, Method};
use crate::tables::{Tables, WORKING_WORDS};

pub fn run(
    method: u64,
    tables: &Tables,
    plan_len: usize,
    work_len: usize,
    checks_allowed: u64,
    trials_allowed: u64,
) -> Reply {
    let search = match admit(method, tables, plan_len, work_len) {
        Ok(search) => search,
        Err(refusal) => return Reply { answer: Answer::Refused(refusal), checks: 0, trials: 0 },
    };
    let mut counter = Counter::new(checks_allowed, trials_allowed);
    let answer = match search(&Harbour::of(tables), &mut counter) {
        Ok(Some(plan)) => Answer::Solved(plan.iter().map(|&slot| slot as u8).collect()),
        Ok(None) => Answer::NoPlan,
        Err(Stop::ByChecks) => Answer::UndecidedByChecks,
        Err(Stop::ByTrials) => Answer::UndecidedByTrials,
    };
    Reply { answer, checks: counter.checks, trials: counter.trials }
}

fn admit(method: u64, tables: &Tables, plan_len: usize, work_len: usize) -> Result<Method, Refusal> {
    let Some(search) = method_of(method) else {
        return refuse(1, 0);
    };
    examine(tables)?;
    if plan_len < tables.boats() {
        return refuse(8, 0);
    }
    if work_len < WORKING_WORDS {
        return refuse(9, 0);
    }
    Ok(search)
}
