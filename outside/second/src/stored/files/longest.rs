//! The limits of files: counts of two bytes, 255 boats, 255 slots, and the largest good file.

use super::records::{needed, records, shorter};
use crate::file::{ed, pr, sz, Lengths};
use crate::random::Random;
use crate::stored::by_hand::all_pairs;
use crate::stored::{Group, Question};
use crate::tables::{Tables, MOST_BOATS, MOST_PAIRS};

pub fn groups() -> Vec<Group> {
    let mut questions = of_many_pairs();
    questions.extend(of_too_many_pairs());
    questions.extend(of_sizes());
    vec![group(Tables::default(), questions), largest()]
}

fn group(tables: Tables, questions: Vec<Question>) -> Group {
    Group { name: String::new(), tables, named: Vec::new(), questions }
}

/// PR records of a lower boat of size 0, and two bytes that count them, rightly or not.
fn of_many_pairs() -> Vec<Question> {
    let counts = [
        (65_535, 65_535),
        (65_535, 65_534),
        (65_535, 0),
        (65_536, 65_535),
        (65_536, 0),
        (65_536, 1),
        (65_537, 1),
    ];
    let file = |(pairs, count)| [sz(&[0, 1]), pr(0, 1, &[]).repeat(pairs), ed(count)].concat();
    let mut questions: Vec<Question> = counts.map(|pair| read_whole(file(pair))).into();
    let exact = Lengths { sizes: 2, pairs: 2 * 65_535, rows: 0 };
    questions.push(Question::File(file(counts[0]), shorter(exact, 2)));
    questions.push(Question::Desk(file(counts[0]), vec![0, 0], exact));
    // Nothing is lent for what is refused anyway.
    questions.push(Question::File([file(counts[0]), vec![0]].concat(), Lengths::default()));
    questions
}

/// As many pairs as may be, and one more; all of them equal.
fn of_too_many_pairs() -> Vec<Question> {
    let file = |pairs| [sz(&[1, 1]), pr(0, 1, &[1]).repeat(pairs), ed(pairs as u16)].concat();
    let exact = Lengths { sizes: 2, pairs: 2 * (MOST_PAIRS + 1), rows: MOST_PAIRS + 1 };
    let mut questions: Vec<Question> =
        [MOST_PAIRS, MOST_PAIRS + 1].map(|pairs| read_whole(file(pairs))).into();
    questions.push(Question::Desk(file(MOST_PAIRS + 1), vec![0, 0], exact));
    questions
}

/// Read with exactly the memory that is needed, or none for what is refused before.
fn read_whole(file: Vec<u8>) -> Question {
    let lent = needed(&file, Lengths::default());
    Question::File(file, lent)
}

/// 0, 1, 64, 65, 254 and 255 boats and slots, with memory that is just enough or short by one.
fn of_sizes() -> Vec<Question> {
    let mut files = vec![Vec::new(), vec![b'S'], vec![0]];
    for number in [0, 1, 64, 65, 128, 254, 255] {
        for size in [0, 1, 64, 65, 255] {
            files.push([sz(&vec![size; number]), ed(0)].concat());
        }
        let words: Vec<u64> = (0..number as u64).map(|slot| slot << 40 | 1).collect();
        files.push([sz(&[number as u8, 64]), pr(0, 1, &words), ed(1)].concat());
        files.push([sz(&[1, number as u8]), pr(0, 1, &[1]), ed(1)].concat());
        // The last boat, and the first that is none.
        let pairs = [number.wrapping_sub(1), number].map(|lower| pr(lower as u8, 0, &[0]));
        files.extend(pairs.map(|pair| [sz(&vec![1; number]), pair, ed(1)].concat()));
    }
    let mut questions = Vec::new();
    for file in files {
        let exact = needed(&file, Lengths { sizes: 3, pairs: 2, rows: 1 });
        let desk = Question::Desk(file.clone(), vec![0; exact.sizes], exact);
        let short = [1, 2, 4].map(|set| Question::File(file.clone(), shorter(exact, set)));
        questions.extend(short);
        questions.extend([desk, Question::File(file, exact)]);
    }
    questions
}

/// 64 boats of size 64 and all pairs: written, read back, and each with a little too little.
fn largest() -> Group {
    let mut random = Random::new(64);
    let rows = (0..MOST_BOATS * MOST_PAIRS).map(|_| random.word()).collect();
    let tables = Tables { sizes: vec![64; MOST_BOATS], pairs: all_pairs(), rows };
    let (file, exact) = (records(&tables).concat(), Lengths::of(&tables));
    let questions = vec![
        Question::Write(file.len()),
        Question::Write(file.len() - 1),
        Question::File(file.clone(), exact),
        Question::File(file.clone(), shorter(exact, 4)),
        Question::Desk(file, vec![63; MOST_BOATS], exact),
    ];
    group(tables, questions)
}
