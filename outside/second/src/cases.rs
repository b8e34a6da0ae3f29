//! The cases run and set beside what is expected, one line each.

use crate::answer::{Answer, Refusal, Reply};
use crate::methods::NAMES;
use crate::run::run;
use crate::tables::{Tables, WORKING_WORDS};
use crate::vectors::{further_cases, harbour_cases, harbour_d, harbour_e, Case};

const AMPLE: u64 = u64::MAX;

/// One run beside its expected reply.
pub struct Line {
    pub name: String,
    pub got: Reply,
    pub due: Reply,
}

impl Line {
    pub fn agrees(&self) -> bool {
        self.got == self.due
    }

    pub fn text(&self) -> String {
        let verdict = if self.agrees() { "agrees" } else { "DIFFERS" };
        format!("{:<34} {:<32} expected {:<32} {verdict}", self.name, show(&self.got), show(&self.due))
    }
}

fn show(reply: &Reply) -> String {
    let answer = match &reply.answer {
        Answer::Solved(plan) => format!("solved {}", shorten(plan)),
        Answer::NoPlan => "no plan".to_string(),
        Answer::UndecidedByChecks => "undecided by checks".to_string(),
        Answer::UndecidedByTrials => "undecided by trials".to_string(),
        Answer::Refused(refusal) => format!("number {} at {}", refusal.number, refusal.place),
    };
    format!("{answer} {}/{}", reply.checks, reply.trials)
}

/// A plan of 64 boats would fill the line.
fn shorten(plan: &[u8]) -> String {
    let slots: Vec<String> = plan.iter().take(8).map(u8::to_string).collect();
    let rest = if plan.len() > 8 { ",.." } else { "" };
    format!("[{}{rest}]", slots.join(","))
}

pub fn all_lines() -> Vec<Line> {
    let mut lines = Vec::new();
    for case in harbour_cases().iter().chain(&further_cases()) {
        lines.extend(lines_of(case));
    }
    lines.extend(allowance_lines());
    lines.extend(limit_lines());
    lines
}

fn lines_of(case: &Case) -> Vec<Line> {
    let mut lines = Vec::new();
    for (method, &(checks, trials)) in (1..).zip(&case.counts) {
        let answer = match &case.plan {
            Some(plan) => Answer::Solved(plan.clone()),
            None => Answer::NoPlan,
        };
        let due = Reply { answer, checks, trials };
        lines.push(under(case.name, method, &case.tables, (AMPLE, AMPLE), due));
    }
    lines
}

fn under(name: &str, method: u64, tables: &Tables, allowed: (u64, u64), due: Reply) -> Line {
    let got = run(method, tables, tables.boats(), WORKING_WORDS, allowed.0, allowed.1);
    let told = match allowed {
        (AMPLE, AMPLE) => String::new(),
        (AMPLE, trials) => format!(", ample/{trials} allowed"),
        (checks, AMPLE) => format!(", {checks}/ample allowed"),
        (checks, trials) => format!(", {checks}/{trials} allowed"),
    };
    Line { name: format!("{name} {}{told}", NAMES[method as usize - 1]), got, due }
}

fn allowance_lines() -> Vec<Line> {
    let (d, e, none) = (harbour_d(), harbour_e(), Tables::default());
    let reply = |answer, checks, trials| Reply { answer, checks, trials };
    let by_checks = || Answer::UndecidedByChecks;
    let by_trials = || Answer::UndecidedByTrials;
    let mut lines = vec![
        under("D", 1, &d, (9, AMPLE), reply(by_checks(), 9, 10)),
        under("D", 1, &d, (AMPLE, 9), reply(by_trials(), 9, 9)),
        under("D", 1, &d, (9, 9), reply(by_trials(), 9, 9)),
        under("D", 1, &d, (10, 10), reply(Answer::NoPlan, 10, 10)),
        under("E", 2, &e, (2, 6), reply(Answer::Solved(vec![1, 0, 0]), 2, 6)),
        under("E", 1, &e, (2, 6), reply(by_trials(), 2, 6)),
    ];
    for method in 1..=5 {
        lines.push(under("A", method, &none, (0, 0), reply(Answer::Solved(vec![]), 0, 0)));
        lines.push(under("D", method, &d, (0, 0), reply(by_trials(), 0, 0)));
    }
    lines
}

fn limit_lines() -> Vec<Line> {
    let boats = |count: usize, size: u8| Tables { sizes: vec![size; count], ..Tables::default() };
    let line = |name: &str, tables: &Tables, work_len, due| {
        let got = run(1, tables, tables.boats(), work_len, AMPLE, AMPLE);
        Line { name: name.to_string(), got, due }
    };
    let refused = |number| {
        let answer = Answer::Refused(Refusal { number, place: 0 });
        Reply { answer, checks: 0, trials: 0 }
    };
    let solved = |count: usize| {
        Reply { answer: Answer::Solved(vec![0; count]), checks: 0, trials: count as u64 }
    };
    vec![
        line("64 boats", &boats(64, 1), 8192, solved(64)),
        line("65 boats", &boats(65, 1), 8192, refused(2)),
        line("size 64", &boats(1, 64), 8192, solved(1)),
        line("size 65", &boats(1, 65), 8192, refused(3)),
        line("8,191 working words", &boats(1, 1), 8191, refused(9)),
        line("no boat, 8,191 working words", &boats(0, 1), 8191, refused(9)),
    ]
}
