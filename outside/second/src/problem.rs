//! One problem as one line of text, and one reply as one line; main.rs describes both.

use crate::answer::{Answer, Reply};
use crate::run::run;
use crate::tables::Tables;

#[derive(Clone, Debug, PartialEq, Eq)]
pub struct Problem {
    pub method: u64,
    pub checks_allowed: u64,
    pub trials_allowed: u64,
    pub plan_len: usize,
    pub work_len: usize,
    pub tables: Tables,
}

impl Problem {
    pub fn reply(&self) -> Reply {
        let (checks, trials) = (self.checks_allowed, self.trials_allowed);
        run(self.method, &self.tables, self.plan_len, self.work_len, checks, trials)
    }

    pub fn line(&self) -> String {
        format!(
            "{} {} {} {} {} | {} | {} | {}",
            self.method,
            self.checks_allowed,
            self.trials_allowed,
            self.plan_len,
            self.work_len,
            hex(&self.tables.sizes),
            hex(&self.tables.pairs),
            hex_words(&self.tables.rows)
        )
    }

    /// The problem on a line, or what is wrong with the line.
    pub fn read(line: &str) -> Result<Problem, String> {
        let fields: Vec<&str> = line.split_whitespace().filter(|&field| field != "|").collect();
        let &[method, checks, trials, plan_len, work_len, sizes, pairs, rows] = &fields[..] else {
            return Err(format!("{} fields in place of 8", fields.len()));
        };
        Ok(Problem {
            method: decimal(method)?,
            checks_allowed: decimal(checks)?,
            trials_allowed: decimal(trials)?,
            plan_len: decimal(plan_len)? as usize,
            work_len: decimal(work_len)? as usize,
            tables: Tables { sizes: bytes(sizes)?, pairs: bytes(pairs)?, rows: words(rows)? },
        })
    }
}

pub fn reply_line(reply: &Reply) -> String {
    let plan = match &reply.answer {
        Answer::Solved(plan) => hex(plan),
        _ => hex(&[]),
    };
    let (number, place) = (reply.answer.number(), reply.answer.place());
    format!("{number} {place} {} {} {plan}", reply.checks, reply.trials)
}

fn or_dash(text: String) -> String {
    if text.is_empty() {
        return "-".to_string();
    }
    text
}

pub fn hex(bytes: &[u8]) -> String {
    or_dash(bytes.iter().map(|byte| format!("{byte:02x}")).collect())
}

pub fn hex_words(words: &[u64]) -> String {
    let words: Vec<String> = words.iter().map(|word| format!("{word:x}")).collect();
    or_dash(words.join(","))
}

fn decimal(field: &str) -> Result<u64, String> {
    field.parse().map_err(|_| format!("no decimal number: {field}"))
}

fn bytes(field: &str) -> Result<Vec<u8>, String> {
    if field == "-" {
        return Ok(Vec::new());
    }
    let digit = |&d: &u8| (d as char).to_digit(16).map(|value| value as u8);
    let digits: Option<Vec<u8>> = field.as_bytes().iter().map(digit).collect();
    match digits {
        Some(digits) if digits.len() % 2 == 0 => {
            Ok(digits.chunks_exact(2).map(|two| two[0] * 16 + two[1]).collect())
        }
        _ => Err(format!("no hex bytes: {field}")),
    }
}

fn words(field: &str) -> Result<Vec<u64>, String> {
    if field == "-" {
        return Ok(Vec::new());
    }
    let word = |text| u64::from_str_radix(text, 16).map_err(|_| format!("no hex word: {text}"));
    field.split(',').map(word).collect()
}
