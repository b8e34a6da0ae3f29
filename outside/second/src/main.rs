//! second run                    answers problems from standard input, one reply line for each
//! second gen KIND SEED COUNT    writes COUNT problem lines (kinds: tiny small phase sparse dense
//!                               wide crowded full bad)
//! second selftest SEED COUNT    compares with brute force and with itself on COUNT tables
//! second cases                  prints the document's cases and the further vectors
//! second vectors problems       writes the stored set, which stored/mod.rs describes
//! second vectors replies        writes the reply to each of its lines
//! second fresh problems KIND SEED COUNT    writes COUNT tables of a kind with the same questions
//! second fresh replies KIND SEED COUNT     writes the reply to each of those lines
//! second files problems         writes the same questions about spoiled and about long files
//! second files replies          writes the reply to each of those lines
//! second kinds                  writes the kinds' names
//!
//! A problem is one line of eight fields, separated by spaces; a lone '|' between fields is written
//! for the eye and skipped when read:
//!
//!   method checks_allowed trials_allowed plan_len work_len | sizes | pairs | rows
//!
//! The first five are decimal. Sizes and pairs are bytes of two hex digits each, without gaps. Rows
//! are hex words separated by commas. '-' stands for none of them. Blank lines are skipped. Harbour
//! case C under BT:
//!
//!   1 18446744073709551615 18446744073709551615 2 8192 | 0202 | 0001 | 2,1
//!
//! A reply is one line of five fields, separated by spaces:
//!
//!   answer place checks trials plan
//!
//! Answer: 0 solved, 1 no plan, 2 undecided by checks, 3 undecided by trials, 100 + number refused.
//! Place is 0 unless refused. Plan is n hex bytes if solved, else '-'; '-' too for n = 0. Case C:
//!
//!   0 0 2 3 0001

use std::io::{self, BufRead, BufWriter, Write};
use std::process::ExitCode;

use second::cases::all_lines;
use second::generate::generate;
use second::problem::{reply_line, Problem};
use second::selftest::selftest;
use second::shapes::KINDS;
use second::stored::{every_file, fresh, groups, problem_lines, reply_lines, Group};

const USAGE: &str =
    "second run | gen KIND SEED COUNT | selftest SEED COUNT | cases | vectors problems | vectors replies
    | fresh problems KIND SEED COUNT | fresh replies KIND SEED COUNT | files problems | files replies
    | kinds";

fn main() -> ExitCode {
    let words: Vec<String> = std::env::args().skip(1).collect();
    let words: Vec<&str> = words.iter().map(String::as_str).collect();
    let done = match words[..] {
        ["run"] => run_lines(),
        ["gen", kind, seed, count] => with_numbers(seed, count, |seed, count| gen(kind, seed, count)),
        ["selftest", seed, count] => with_numbers(seed, count, test_itself),
        ["cases"] => print_cases(),
        ["vectors", "problems"] => write_text(&problem_lines(&groups())),
        ["vectors", "replies"] => write_text(&reply_lines(&groups())),
        ["fresh", "problems", kind, seed, count] => write_fresh(kind, seed, count, problem_lines),
        ["fresh", "replies", kind, seed, count] => write_fresh(kind, seed, count, reply_lines),
        ["files", "problems"] => write_text(&problem_lines(&every_file())),
        ["files", "replies"] => write_text(&reply_lines(&every_file())),
        ["kinds"] => write_text(&format!("{}\nbad\n", KINDS.join("\n"))),
        _ => Err(io::Error::other(USAGE)),
    };
    match done {
        Ok(true) => ExitCode::SUCCESS,
        Ok(false) => ExitCode::FAILURE,
        Err(error) => {
            eprintln!("second: {error}");
            ExitCode::from(2)
        }
    }
}

fn with_numbers(seed: &str, count: &str, act: impl Fn(u64, u64) -> io::Result<bool>) -> io::Result<bool> {
    match (seed.parse(), count.parse()) {
        (Ok(seed), Ok(count)) => act(seed, count),
        _ => Err(io::Error::other(USAGE)),
    }
}

fn run_lines() -> io::Result<bool> {
    let mut out = BufWriter::new(io::stdout().lock());
    for (number, line) in (1..).zip(io::stdin().lock().lines()) {
        let line = line?;
        if line.trim().is_empty() {
            continue;
        }
        let wrong = |what| io::Error::other(format!("line {number}: {what}"));
        let problem = Problem::read(&line).map_err(wrong)?;
        writeln!(out, "{}", reply_line(&problem.reply()))?;
    }
    out.flush()?;
    Ok(true)
}

fn gen(kind: &str, seed: u64, count: u64) -> io::Result<bool> {
    let mut out = BufWriter::new(io::stdout().lock());
    if !generate(kind, seed, count, |problem| writeln!(out, "{}", problem.line()))? {
        return Err(io::Error::other(format!("no such kind: {kind}")));
    }
    out.flush()?;
    Ok(true)
}

fn test_itself(seed: u64, count: u64) -> io::Result<bool> {
    let tally = selftest(seed, count);
    for example in &tally.examples {
        println!("{example}");
    }
    println!(
        "tables {} (with a plan {}), comparisons {}, differed {}",
        tally.tables, tally.with_plan, tally.comparisons, tally.differed
    );
    Ok(tally.differed == 0)
}

fn write_text(text: &str) -> io::Result<bool> {
    io::stdout().lock().write_all(text.as_bytes())?;
    Ok(true)
}

fn write_fresh(kind: &str, seed: &str, count: &str, text: fn(&[Group]) -> String) -> io::Result<bool> {
    with_numbers(seed, count, |seed, count| match fresh(kind, seed, count as usize) {
        Some(groups) => write_text(&text(&groups)),
        None => Err(io::Error::other(format!("no such kind: {kind}"))),
    })
}

fn print_cases() -> io::Result<bool> {
    let lines = all_lines();
    for line in &lines {
        println!("{}", line.text());
    }
    let differed = lines.iter().filter(|line| !line.agrees()).count();
    println!("lines {}, differed {differed}", lines.len());
    Ok(differed == 0)
}
