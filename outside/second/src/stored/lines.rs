//! The two files, line by line.

use super::file_lines::{desk_reply, file_reply, lengths, write_reply};
use super::{Group, Question, Terms};
use crate::answer::{Answer, Refusal, Reply};
use crate::examine::examine;
use crate::plans::{first_broken_pair, lawful};
use crate::problem::{hex, hex_words, reply_line};
use crate::rows::rows_of_pair;
use crate::run::run;
use crate::tables::{Tables, WORKING_WORDS};

pub fn problem_lines(groups: &[Group]) -> String {
    let mut text = String::new();
    for Group { name, tables, named, questions } in groups {
        let Tables { sizes, pairs, rows } = tables;
        text += &line(&format!("t {} {} {}", hex(sizes), hex(pairs), hex_words(rows)), name);
        for (name, question) in named {
            text += &line(&asked(question), name);
        }
        for question in questions {
            text += &line(&asked(question), "");
        }
    }
    text
}

fn line(asked: &str, name: &str) -> String {
    match name {
        "" => format!("{asked}\n"),
        _ => format!("{asked} # {name}\n"),
    }
}

fn asked(question: &Question) -> String {
    match question {
        Question::Run(terms) => {
            let Terms { method, checks_allowed, trials_allowed, plan_len, work_len } = terms;
            format!("r {method} {checks_allowed} {trials_allowed} {plan_len} {work_len}")
        }
        Question::Plan(plan) => format!("p {}", hex(plan)),
        Question::Rows(lower, higher) => format!("s {lower} {higher}"),
        Question::Write(room) => format!("w {room}"),
        Question::File(file, lent) => format!("f {} {}", hex(file), lengths(lent)),
        Question::Desk(file, plan, lent) => format!("d {} {} {}", hex(file), hex(plan), lengths(lent)),
    }
}

pub fn reply_lines(groups: &[Group]) -> String {
    let mut text = String::new();
    for Group { tables, named, questions, .. } in groups {
        text += &format!("t {}\n", told(examine(tables).map(|()| (0, 0))));
        for question in named.iter().map(|(_, question)| question).chain(questions) {
            text += &match question {
                Question::Run(terms) => run_reply(tables, terms),
                Question::Plan(plan) => plan_reply(tables, plan),
                Question::Rows(lower, higher) => rows_reply(tables, *lower, *higher),
                Question::Write(room) => write_reply(tables, *room),
                Question::File(file, lent) => file_reply(file, lent),
                Question::Desk(file, plan, lent) => desk_reply(file, plan, lent),
            };
        }
    }
    text
}

/// An answer's number and its place.
pub(super) fn told(reply: Result<(u64, usize), Refusal>) -> String {
    let (answer, place) = reply.unwrap_or_else(|refusal| (100 + refusal.number, refusal.place));
    format!("{answer} {place}")
}

pub(super) fn reply_to(tables: &Tables, terms: &Terms) -> Reply {
    let Terms { method, checks_allowed, trials_allowed, plan_len, work_len } = *terms;
    run(method, tables, plan_len, work_len, checks_allowed, trials_allowed)
}

fn run_reply(tables: &Tables, terms: &Terms) -> String {
    let reply = reply_to(tables, terms);
    // Solved writes the first n bytes; every answer but a refusal leaves 8,192 words at 0.
    let (bytes, words) = match reply.answer {
        Answer::Solved(_) => (tables.boats(), WORKING_WORDS),
        Answer::NoPlan | Answer::UndecidedByChecks | Answer::UndecidedByTrials => (0, WORKING_WORDS),
        Answer::Refused(_) => (0, 0),
    };
    format!("r {} {bytes} {words} 0\n", reply_line(&reply))
}

fn plan_reply(tables: &Tables, plan: &[u8]) -> String {
    let is_lawful = lawful(tables, plan).map(|yes| (u64::from(!yes), 0));
    let broken = first_broken_pair(tables, plan).map(|pair| match pair {
        Some(index) => (1, index),
        None => (0, 0),
    });
    format!("p {} {}\n", told(is_lawful), told(broken))
}

fn rows_reply(tables: &Tables, lower: usize, higher: usize) -> String {
    let (from, to) = rows_of_pair(tables, lower, higher);
    format!("s {from} {to} {}\n", hex_words(&tables.rows[from..to]))
}
