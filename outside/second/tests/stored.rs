//! The stored files are the ones made from the source, and they have what they are there for.

mod pair_ways;

use std::cmp::Ordering::{self, Equal, Greater, Less};
use std::collections::{BTreeMap, BTreeSet};
use std::fs;

use pair_ways::faulty;
use second::stored::{groups, problem_lines, reply_lines};

const AMPLE: u64 = u64::MAX;

/// A stored run beside its reply, with what is known of its tables.
struct Run {
    table: usize,
    boats: u64,
    examined: u64,
    method: u64,
    checks_allowed: u64,
    trials_allowed: u64,
    plan_len: u64,
    work_len: u64,
    answer: u64,
    checks: u64,
    trials: u64,
}

fn stored(file: &str) -> String {
    let folder = concat!(env!("CARGO_MANIFEST_DIR"), "/../../crates/vectors/");
    fs::read_to_string(format!("{folder}{file}")).expect("a stored file")
}

fn numbers(fields: &[&str]) -> Vec<u64> {
    fields.iter().map(|field| field.parse().expect("a number")).collect()
}

fn runs() -> Vec<Run> {
    let (problems, replies) = (stored("stdin"), stored("stdout"));
    assert_eq!(problems.lines().count(), replies.lines().count());
    let (mut runs, mut table, mut boats, mut examined) = (Vec::new(), 0, 0, 0);
    for (problem, reply) in problems.lines().zip(replies.lines()) {
        let problem: Vec<&str> = problem.split(' ').collect();
        let reply: Vec<&str> = reply.split(' ').collect();
        if problem[0] == "t" {
            (table, examined) = (table + 1, numbers(&reply[1..])[0]);
            boats = problem[1].trim_matches('-').len() as u64 / 2;
        }
        if problem[0] == "r" {
            let (asked, told) = (numbers(&problem[1..6]), numbers(&reply[1..5]));
            let [method, checks_allowed, trials_allowed, plan_len, work_len] = asked[..] else { panic!() };
            let [answer, _, checks, trials] = told[..] else { panic!() };
            runs.push(Run {
                table,
                boats,
                examined,
                method,
                checks_allowed,
                trials_allowed,
                plan_len,
                work_len,
                answer,
                checks,
                trials,
            });
        }
    }
    runs
}

#[test]
fn the_stored_files_are_made_from_the_source() {
    let groups = groups();
    assert!(stored("stdin") == problem_lines(&groups));
    assert!(stored("stdout") == reply_lines(&groups));
}

#[test]
fn every_name_is_there_once() {
    let problems = stored("stdin");
    let named: Vec<&str> = problems.lines().filter_map(|line| Some(line.split_once(" # ")?.1)).collect();
    let names: BTreeSet<&str> = named.iter().copied().collect();
    assert_eq!(named.len(), names.len());
    let cited = cited();
    assert!(cited.len() >= 10);
    for name in cited {
        let by_method = format!("{name}, BT");
        assert!(names.contains(&*name) || names.contains(&*by_method), "{name}");
    }
}

/// The names that the tables of docs/DECISIONS.md cite, in backquotes, up to the next stop in the cell.
fn cited() -> Vec<String> {
    let page = concat!(env!("CARGO_MANIFEST_DIR"), "/../../docs/DECISIONS.md");
    let page = fs::read_to_string(page).expect("the page of decisions");
    let rows = page.lines().filter(|line| line.starts_with("| ")).filter_map(|row| row.split_once("the stored problem"));
    let told = rows.filter_map(|(_, told)| told.split([':', ';', '.', '|']).next());
    told.flat_map(|names| names.split('`').skip(1).step_by(2)).map(str::to_string).collect()
}

#[test]
fn two_thousand_problems_and_every_answer_by_every_method() {
    let runs = runs();
    assert!(runs.len() >= 2000);
    let answered: BTreeSet<(u64, u64)> = runs.iter().map(|run| (run.method, run.answer)).collect();
    for method in 1..=5 {
        for answer in (0..=3).chain(102..=104).chain(151..=154).chain(106..=109) {
            assert!(answered.contains(&(method, answer)), "answer {answer} by method {method}");
        }
    }
    for no_method in [0, 6, 257, AMPLE] {
        assert!(answered.contains(&(no_method, 101)), "method {no_method}");
    }
}

#[test]
fn allowances_ample_exact_and_one_less() {
    let runs = runs();
    let ample = |run: &&Run| (run.checks_allowed, run.trials_allowed) == (AMPLE, AMPLE) && run.answer <= 1;
    let whole: BTreeMap<(usize, u64), (u64, u64)> =
        runs.iter().filter(ample).map(|run| ((run.table, run.method), (run.checks, run.trials))).collect();
    for method in 1..=5 {
        let (mut exact, mut one_check_less, mut one_trial_less) = (0, 0, 0);
        for run in runs.iter().filter(|run| run.method == method) {
            let Some(&(checks, trials)) = whole.get(&(run.table, method)) else { continue };
            exact += u64::from((run.checks_allowed, run.trials_allowed) == (checks, trials));
            one_check_less += u64::from(run.answer == 2 && run.checks_allowed + 1 == checks);
            one_trial_less += u64::from(run.answer == 3 && run.trials_allowed + 1 == trials);
        }
        let least = [exact, one_check_less, one_trial_less].into_iter().min();
        assert!(least >= Some(50), "method {method}: {exact} {one_check_less} {one_trial_less}");
    }
    assert!(whole.len() >= 250);
}

#[test]
fn several_faults_at_once_and_memory_of_every_length() {
    let runs = runs();
    let count = |holds: &dyn Fn(&Run) -> bool| runs.iter().filter(|run| holds(run)).count();
    let no_method = |run: &Run| !(1..=5).contains(&run.method);
    let bad_tables = |run: &Run| run.examined != 0;
    let short_plan = |run: &Run| run.plan_len < run.boats;
    let short_work = |run: &Run| run.work_len < 8192;
    assert!(count(&|run| no_method(run) && bad_tables(run)) >= 50);
    assert!(count(&|run| bad_tables(run) && short_plan(run)) >= 50);
    assert!(count(&|run| bad_tables(run) && short_work(run)) >= 50);
    assert!(count(&|run| short_plan(run) && short_work(run)) >= 50);
    assert!(count(&|run| run.answer < 100 && run.plan_len > run.boats) >= 50);
    assert!(count(&|run| run.answer < 100 && run.work_len > 8192) >= 50);
    assert!(count(&|run| run.answer < 100 && run.boats == 0) >= 10);
    assert!(count(&|run| run.answer < 100 && run.boats == 64) >= 100);
}

#[test]
fn plans_and_rows_are_asked_for() {
    let replies = stored("stdout");
    let refused = ["p 151 ", "p 152 ", "p 153 ", "p 154 ", "p 110 0 110 0", "p 111 "];
    for reply in ["p 0 0 0 0", "p 1 0 1 ", "s 0 0 -"].into_iter().chain(refused) {
        assert!(replies.lines().filter(|line| line.starts_with(reply)).count() >= 10, "{reply}");
    }
    let shown = |line: &&str| line.starts_with("s ") && !line.ends_with('-');
    assert!(replies.lines().filter(shown).count() >= 100);
}

/// Stored tables beside what the examination says of them, with what is wrong told from them anew.
struct Table {
    boats: usize,
    pairs: Vec<u8>,
    /// The faulty pairs, each with those of 51 to 54 that hold at it.
    bad_pairs: Vec<(usize, Vec<u64>)>,
    /// The other numbers that hold, with their places.
    others: BTreeMap<u64, usize>,
    answer: u64,
    place: usize,
}

fn tables() -> Vec<Table> {
    let (problems, replies) = (stored("stdin"), stored("stdout"));
    let lines = problems.lines().zip(replies.lines()).filter(|(problem, _)| problem.starts_with("t "));
    lines.map(|(problem, reply)| table(problem, reply)).collect()
}

fn table(problem: &str, reply: &str) -> Table {
    let problem: Vec<&str> = problem.split(' ').collect();
    let reply: Vec<&str> = reply.split(' ').collect();
    let (sizes, pairs) = (bytes(problem[1]), bytes(problem[2]));
    let told = numbers(&reply[1..]);
    Table {
        boats: sizes.len(),
        bad_pairs: faulty(sizes.len(), &pairs),
        others: others(&sizes, &pairs, &words(problem[3])),
        pairs,
        answer: told[0],
        place: told[1] as usize,
    }
}

fn bytes(field: &str) -> Vec<u8> {
    let field = field.trim_matches('-');
    let byte = |from| u8::from_str_radix(&field[from..from + 2], 16).expect("a byte");
    (0..field.len()).step_by(2).map(byte).collect()
}

fn words(field: &str) -> Vec<u64> {
    let word = |word| u64::from_str_radix(word, 16).expect("a word");
    field.split(',').filter(|&word| word != "-").map(word).collect()
}

/// Those of 2, 3, 4, 6 and 7 that hold, with their places. A byte that names no boat counts as size 0.
fn others(sizes: &[u8], pairs: &[u8], rows: &[u64]) -> BTreeMap<u64, usize> {
    let size = |boat: u8| usize::from(*sizes.get(usize::from(boat)).unwrap_or(&0));
    let higher: Vec<usize> =
        pairs.chunks_exact(2).flat_map(|pair| vec![size(pair[1]); size(pair[0])]).collect();
    let too_wide = |(word, &size): (&u64, &usize)| (size..64).any(|bit| word >> bit & 1 == 1);
    let holds = [
        (2, (sizes.len() > 64).then_some(0)),
        (3, sizes.iter().position(|size| !(1..=64).contains(size))),
        (4, (pairs.len() % 2 == 1 || pairs.len() > 4032).then_some(0)),
        (6, (rows.len() != higher.len()).then_some(0)),
        (7, rows.iter().zip(&higher).position(too_wide)),
    ];
    holds.into_iter().filter_map(|(number, place)| Some((number, place?))).collect()
}

impl Table {
    /// Which bytes of a pair name no boat.
    fn no_boat(&self, pair: usize) -> [bool; 2] {
        [0, 1].map(|byte| usize::from(self.pairs[2 * pair + byte]) >= self.boats)
    }

    /// The byte where one of 51 to 54 stands.
    fn byte_at_fault(&self, pair: usize, number: u64) -> usize {
        let second = match number {
            51 => !self.no_boat(pair)[0],
            52 => true,
            _ => false,
        };
        2 * pair + usize::from(second)
    }

    fn has_others(&self, others: &[u64]) -> bool {
        self.others.keys().eq(others)
    }

    /// At the lowest faulty pair this number holds and no other of the four.
    fn begins_with(&self, pair: usize, number: u64) -> bool {
        self.bad_pairs.first() == Some(&(pair, vec![number]))
    }

    fn is_told(&self, answer: u64, place: usize) -> bool {
        (self.answer, self.place) == (answer, place)
    }
}

#[test]
fn of_all_that_holds_the_first_in_order_is_told() {
    for table in tables() {
        let mut holds = table.others.clone();
        for (pair, ways) in table.bad_pairs.iter().take(1) {
            holds.extend(ways.iter().map(|&number| (number, table.byte_at_fault(*pair, number))));
        }
        let in_order = [2, 3, 4, 51, 52, 53, 54, 6, 7];
        let first = in_order.iter().find_map(|number| Some((100 + number, *holds.get(number)?)));
        let (answer, place) = first.unwrap_or((0, 0));
        assert!(table.is_told(answer, place), "{holds:?} {} {}", table.answer, table.place);
    }
}

/// Some tables have just these faulty pairs and other numbers, and all of them are refused for the first
/// pair by the least number that holds at it.
fn refused(tables: &[Table], others: &[u64], bad_pairs: &[(usize, &[u64])]) {
    let due: Vec<(usize, Vec<u64>)> = bad_pairs.iter().map(|&(pair, ways)| (pair, ways.to_vec())).collect();
    let just_these = |table: &&Table| table.has_others(others) && table.bad_pairs == due;
    let found: Vec<&Table> = tables.iter().filter(just_these).collect();
    assert!(!found.is_empty(), "not stored: {bad_pairs:?} with {others:?}");
    let (pair, number) = (bad_pairs[0].0, bad_pairs[0].1[0]);
    for table in found {
        let place = table.byte_at_fault(pair, number);
        assert!(table.is_told(100 + number, place), "{bad_pairs:?} with {others:?}");
    }
}

#[test]
fn each_way_a_pair_is_bad_and_every_two_in_one_pair() {
    let tables = tables();
    let first: [&[u64]; 5] = [&[51], &[52], &[53], &[51, 52], &[51, 53]];
    let only_later: [&[u64]; 4] = [&[54], &[51, 54], &[52, 54], &[53, 54]];
    for ways in first {
        refused(&tables, &[], &[(0, ways)]);
    }
    for ways in first.into_iter().chain(only_later) {
        refused(&tables, &[], &[(1, ways)]);
    }
}

#[test]
fn either_byte_or_both_of_51() {
    let tables = tables();
    for pair in [0, 1] {
        for no_boat in [[true, false], [false, true], [true, true]] {
            let place = 2 * pair + usize::from(!no_boat[0]);
            let alone = |table: &Table| table.has_others(&[]) && table.bad_pairs.len() == 1;
            let here = |table: &Table| table.bad_pairs[0].0 == pair && table.no_boat(pair) == no_boat;
            let told = |table: &Table| alone(table) && here(table) && table.is_told(151, place);
            assert!(tables.iter().any(told), "51 at pair {pair}: {no_boat:?}");
        }
    }
}

#[test]
fn equal_to_and_below_the_pair_before() {
    let tables = tables();
    let alone = |table: &&Table| table.has_others(&[]) && table.bad_pairs == [(1, vec![54])];
    let told = |table: &Table| {
        assert!(table.is_told(154, 2));
        (table.pairs[2].cmp(&table.pairs[0]), table.pairs[3].cmp(&table.pairs[1]))
    };
    let found: BTreeSet<(Ordering, Ordering)> = tables.iter().filter(alone).map(told).collect();
    for boats in [(Equal, Equal), (Equal, Less), (Less, Less), (Less, Equal), (Less, Greater)] {
        assert!(found.contains(&boats), "lower and higher boat {boats:?}");
    }
}

#[test]
fn every_two_in_two_pairs_either_way_round() {
    let tables = tables();
    for number in 51..=54 {
        for after in 51..=54 {
            refused(&tables, &[], &[(1, &[number]), (2, &[after])]);
            if number != 54 {
                refused(&tables, &[], &[(0, &[number]), (1, &[after])]);
            }
        }
    }
}

#[test]
fn bad_pairs_after_4_and_before_6_and_7() {
    let tables = tables();
    for number in 51..=54 {
        for pair in [0, 1].into_iter().filter(|&pair| (pair, number) != (0, 54)) {
            let of_4 = |table: &&Table| table.begins_with(pair, number) && table.has_others(&[4]);
            let odd = |table: &Table| table.pairs.len() % 2 == 1 && table.is_told(104, 0);
            assert!(tables.iter().filter(of_4).any(odd), "{number} at pair {pair} with 4");
            for others in [&[6][..], &[7], &[6, 7]] {
                refused(&tables, others, &[(pair, &[number])]);
            }
        }
        let of_4 = |table: &&Table| table.begins_with(1, number) && table.has_others(&[4]);
        let too_many = |table: &Table| table.pairs.len() == 4034 && table.is_told(104, 0);
        assert!(tables.iter().filter(of_4).any(too_many), "{number} with too many bytes");
    }
}

#[test]
fn each_of_the_four_with_every_two_other_numbers() {
    let tables = tables();
    for number in 51..=54 {
        let bad = |table: &&Table| table.bad_pairs.len() == 1 && table.bad_pairs[0].1 == [number];
        let sets: Vec<&BTreeMap<u64, usize>> = tables.iter().filter(bad).map(|table| &table.others).collect();
        for (one, other) in [(2, 3), (2, 4), (2, 6), (2, 7), (3, 4), (3, 6), (3, 7), (4, 6), (4, 7), (6, 7)] {
            for (has_one, has_other) in [(true, true), (true, false), (false, true), (false, false)] {
                let met = |set: &&BTreeMap<u64, usize>| {
                    set.contains_key(&one) == has_one && set.contains_key(&other) == has_other
                };
                assert!(sets.iter().any(met), "{number} with {one} {has_one} {other} {has_other}");
            }
        }
    }
}

#[test]
fn named_bad_pairs_are_told_as_worked_out() {
    let (problems, replies) = (stored("stdin"), stored("stdout"));
    for (name, reply) in [
        ("pair 1-0", "t 153 0"),
        ("pair 1-1", "t 152 1"),
        ("pair 0-3 of 3 boats", "t 151 1"),
        ("pair 255-255", "t 151 0"),
        ("pairs 0-1, 0-1", "t 154 2"),
        ("pairs 0-2, 0-1", "t 154 2"),
        ("pairs 0-1, 1-2, 0-2", "t 154 4"),
        ("pairs 0-1, 2-1, 1-0", "t 153 2"),
        ("pairs 0-1, 0-9 of 3 boats", "t 151 3"),
        ("pair 9-9 of 3 boats", "t 151 0"),
        ("pair 9-0 of 3 boats", "t 151 0"),
        ("pair 0-9 of 3 boats", "t 151 1"),
        ("pairs 1-0, 9-9 of 3 boats", "t 153 0"),
        ("pairs 0-1, 1-1", "t 152 3"),
        ("pairs 1-2, 0-0", "t 152 3"),
        ("pairs 1-2, 1-0", "t 153 2"),
        ("pairs 1-2, 0-9 of 3 boats", "t 151 3"),
        ("pairs 1-2, 0-3 of 4 boats", "t 154 2"),
        ("2017 equal pairs", "t 104 0"),
        ("2016 pairs, the last 62-64", "t 151 4031"),
        ("pair 1-0, two rows for one", "t 153 0"),
        ("pair 0-2 of 2 boats, two rows for one, high bits", "t 151 1"),
        ("pairs 0-1 1-0, FC-CBJ", "r 153 2 0 0 - 0 0 0"),
        ("pair 1-0 and 1 row word for 2, FC-CBJ", "r 153 0 0 0 - 0 0 0"),
    ] {
        let ending = format!(" # {name}");
        let mut lines = problems.lines().zip(replies.lines());
        let found = lines.find(|(problem, _)| problem.ends_with(&ending));
        assert_eq!(found.map(|(_, told)| told), Some(reply), "{name}");
    }
}
