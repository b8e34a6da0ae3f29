//! The stored lines about files: those with a name are told as worked out by hand from the document, and
//! all of them keep within the lengths that the program under test has room for.

use std::collections::{BTreeMap, BTreeSet};
use std::fs;

/// Number and place of each fault of the bytes, with memory enough for the example.
const FAULTS: [(&str, u64, usize); 61] = [
    ("no byte", 22, 0),
    ("S alone", 22, 1),
    ("X alone", 22, 1),
    ("XX", 21, 0),
    ("SZ cut before n", 22, 2),
    ("SZ cut after n", 22, 3),
    ("sizes cut", 22, 4),
    ("255 sizes cut", 22, 5),
    ("PR first", 21, 0),
    ("ED first", 21, 0),
    ("ED before SZ", 21, 0),
    ("no ED and no PR", 22, 5),
    ("no ED after a PR", 22, 17),
    ("P alone after the sizes", 22, 6),
    ("X alone after the sizes", 22, 6),
    ("XX and no more after the sizes", 21, 5),
    ("a second SZ", 21, 5),
    ("a second SZ after the PR", 21, 17),
    ("a byte between SZ and PR", 21, 5),
    ("one size more than n", 21, 4),
    ("PR cut before its lower boat", 22, 7),
    ("PR cut after a lower boat 9", 23, 7),
    ("PR cut before its higher boat", 22, 8),
    ("PR cut before its word", 22, 9),
    ("PR cut after a byte of its word", 22, 10),
    ("PR cut before the last byte of its word", 22, 16),
    ("lower boat 2 of 2", 23, 7),
    ("lower boat 9 of 2", 23, 7),
    ("lower boat 255 of 2", 23, 7),
    ("both boats 9 of 2", 23, 7),
    ("lower boat 9 of 2 in the second PR", 23, 19),
    ("lower boat 0 of none", 23, 5),
    ("word cut by ED", 22, 17),
    ("one word more than slots", 21, 17),
    ("E alone", 22, 18),
    ("ED cut before its count", 22, 19),
    ("ED cut inside the right count", 22, 20),
    ("ED cut inside a wrong count", 22, 20),
    ("count 0 of 1", 24, 19),
    ("count 2 of 1", 24, 19),
    ("count 257 of 1", 24, 19),
    ("count 256 of 1", 24, 19),
    ("wrong count and a byte after", 24, 19),
    ("wrong count and a PR after", 24, 19),
    ("a zero byte after ED", 25, 21),
    ("a PR after ED", 25, 21),
    ("an SZ after ED", 25, 21),
    ("a second ED", 25, 21),
    ("P alone after ED", 25, 21),
    ("WL", 21, 5),
    ("OP", 21, 5),
    ("sz", 21, 0),
    ("pr", 21, 5),
    ("ed", 21, 17),
    ("ZS", 21, 0),
    ("RP", 21, 5),
    ("DE", 21, 17),
    ("SD", 21, 0),
    ("PD", 21, 5),
    ("ER", 21, 17),
    ("SZ for ED", 21, 17),
];

/// Read, then examined: the whole reply after f. Texts that repeat themselves stand in `long_replies`.
const EXAMINED: [(&str, &str); 26] = [
    ("the example", "0 0 2 2 1 0101 0001 1"),
    ("no boat", "0 0 0 0 0 - - -"),
    ("no boat, memory for one", "0 0 0 0 0 ff ff ffffffffffffffff"),
    ("one boat", "0 0 1 0 0 01 - -"),
    ("size 0", "103 0 1 0 0 00 - -"),
    ("size 64", "0 0 1 0 0 40 - -"),
    ("size 65", "103 0 1 0 0 41 - -"),
    ("size 255", "103 0 1 0 0 ff - -"),
    ("sizes 1, 0, 65", "103 1 3 0 0 010041 - -"),
    ("a PR of size 0 without words", "103 0 2 2 0 0001 0001 -"),
    ("two PRs of size 0", "103 0 2 4 0 0001 00010001 -"),
    ("higher boat 2 of 2", "151 1 2 2 1 0101 0002 1"),
    ("higher boat 255 of 2", "151 1 2 2 1 0101 01ff 1"),
    ("boats 0 and 0", "152 1 2 2 1 0101 0000 1"),
    ("boats 1 and 0", "153 0 2 2 1 0101 0100 1"),
    ("pairs 0-1, 1-2", "0 0 3 4 2 010101 00010102 1,0"),
    ("pairs 0-2, 0-1", "154 2 3 4 2 010101 00020001 1,0"),
    ("pairs 1-2, 0-2", "154 2 3 4 2 010101 01020002 1,0"),
    ("pairs 0-1, 0-1", "154 2 3 4 2 010101 00010001 1,0"),
    ("pairs 0-1, 2-1", "153 2 3 4 2 010101 00010201 1,0"),
    ("pairs 0-1, 0-9 of 3 boats", "151 3 3 4 2 010101 00010009 1,0"),
    ("a word of eight bytes", "0 0 2 2 1 0140 0001 8807060504030201"),
    ("three words", "0 0 2 2 3 0340 0001 1,8000000000000000,8796a5b4c3d2e1f0"),
    ("row bit 1 of size 1", "107 0 2 2 1 0101 0001 2"),
    ("row bits 0 and 63 of size 1", "107 0 2 2 1 0101 0001 8000000000000001"),
    ("a row of zeros", "0 0 2 2 1 0101 0001 0"),
];

/// Lent memory, the reply after f: the example, then three pairs, then what 26 comes before and after.
const LENT: [(&str, &str); 22] = [
    ("the example and a size byte too few", "126 0 0 0 0 ff fffe ffffffffffffffff"),
    ("the example and a pair byte too few", "126 0 0 0 0 fffe ff ffffffffffffffff"),
    ("the example and a row word too few", "126 0 0 0 0 fffe fffe -"),
    ("the example and one too few of each", "126 0 0 0 0 ff ff -"),
    ("the example and nothing lent", "126 0 0 0 0 - - -"),
    ("the example and more of sizes alone", "126 0 0 0 0 fffefdfcfb ff ffffffffffffffff"),
    ("the example and a size byte more", "0 0 2 2 1 0101fd 0001 1"),
    ("the example and a pair byte more", "0 0 2 2 1 0101 0001fd 1"),
    ("the example and a row word more", "0 0 2 2 1 0101 0001 1,fffffffffffffffe"),
    (
        "the example and three more of each",
        "0 0 2 2 1 0101fdfcfb 0001fdfcfb 1,fffffffffffffffe,fffffffffffffffd,fffffffffffffffc",
    ),
    ("three pairs and just enough", "0 0 3 6 5 020102 000100020102 0,1,1,2,3"),
    ("three pairs and one more of each", "0 0 3 6 5 020102fc 000100020102f9 0,1,1,2,3,fffffffffffffffa"),
    ("size 0 and no byte", "126 0 0 0 0 - - -"),
    ("boats 0 and 0 and one pair byte", "126 0 0 0 0 fffe ff ffffffffffffffff"),
    ("row bit 1 of size 1 and no row word", "126 0 0 0 0 fffe fffe -"),
    ("XX after the sizes and nothing lent", "121 5 0 0 0 - - -"),
    ("no ED and nothing lent", "122 17 0 0 0 - - -"),
    ("lower boat 9 and nothing lent", "123 7 0 0 0 - - -"),
    ("count 2 of 1 and nothing lent", "124 19 0 0 0 - - -"),
    ("a byte after ED and nothing lent", "125 21 0 0 0 - - -"),
    ("count 2 of 1 and one too few of each", "124 19 0 0 0 ff ff -"),
    ("the example once more, after all these", "0 0 2 2 1 0101 0001 1"),
];

/// The desk's question, the reply after d.
const DESK: [(&str, &str); 31] = [
    ("the example, plan [0, 0]", "0 0101 0001 1"),
    ("the example, plan []", "110 0101 0001 1"),
    ("the example, plan [0]", "110 0101 0001 1"),
    ("the example, plan [0, 0, 0]", "110 0101 0001 1"),
    ("the example, plan [9]", "110 0101 0001 1"),
    ("the example, plan [0, 1]", "111 0101 0001 1"),
    ("the example, plan [1, 0]", "111 0101 0001 1"),
    ("the example, plan [255, 255]", "111 0101 0001 1"),
    (
        "the example and three more of each",
        "0 0101fdfcfb 0001fdfcfb 1,fffffffffffffffe,fffffffffffffffd,fffffffffffffffc",
    ),
    (
        "the example and three more of each, plan [1, 0]",
        "111 0101fdfcfb 0001fdfcfb 1,fffffffffffffffe,fffffffffffffffd,fffffffffffffffc",
    ),
    ("D, plan [0, 1, 1]", "1 020202 000100020102 2,1,2,1,2,1"),
    ("D, plan [0, 0, 1]", "1 020202 000100020102 2,1,2,1,2,1"),
    ("D without 1-2, plan [0, 1, 1]", "0 020202 00010002 2,1,2,1"),
    ("D without 1-2, plan [0, 2, 1]", "111 020202 00010002 2,1,2,1"),
    ("the pair not allowed, plan [0, 0]", "1 0101 0001 0"),
    ("row bit 1 of size 1", "107 0101 0001 2"),
    ("row bit 1 of size 1, plan [9]", "107 0101 0001 2"),
    ("boats 1 and 0, plan [0, 0]", "153 0101 0100 1"),
    ("no boat, no slot", "0 - - -"),
    ("no boat, plan [0]", "110 ff ff ffffffffffffffff"),
    ("size 0, plan [0]", "103 00 - -"),
    ("no byte", "122 fffe fffe ffffffffffffffff"),
    ("XX after the sizes", "121 fffe fffe ffffffffffffffff"),
    ("no ED", "122 fffe fffe ffffffffffffffff"),
    ("lower boat 9", "123 fffe fffe ffffffffffffffff"),
    ("count 2 of 1", "124 fffe fffe ffffffffffffffff"),
    ("a byte after ED", "125 - - -"),
    ("a size byte too few", "126 ff fffe ffffffffffffffff"),
    ("a pair byte too few", "126 fffe ff ffffffffffffffff"),
    ("a row word too few", "126 fffe fffe -"),
    ("boats 0 and 0 and no row word", "126 fffe fffe -"),
];

/// The writer, the reply after w.
const WRITTEN: [(&str, &str); 11] = [
    ("the example in 21 bytes", "0 0 21 535a02010150520001010000000000000045440100"),
    ("the example in 20 bytes", "126 0 0 fffefdfcfbfaf9f8f7f6f5f4f3f2f1f0efeeedec"),
    ("the example in 22 bytes", "0 0 21 535a02010150520001010000000000000045440100ea"),
    ("the example in no byte", "126 0 0 -"),
    ("no boat in 6 bytes", "126 0 0 fffefdfcfbfa"),
    ("no boat in 7 bytes", "0 0 7 535a0045440000"),
    ("no boat in 10 bytes", "0 0 7 535a0045440000f8f7f6"),
    (
        "three words in 37 bytes",
        "0 0 37 535a020340505200010100000000000000000000000000008\
         0f0e1d2c3b4a5968745440100",
    ),
    (
        "three words in 40 bytes",
        "0 0 37 535a020340505200010100000000000000000000000000008\
         0f0e1d2c3b4a5968745440100dad9d8",
    ),
    (
        "two pairs in 42 bytes",
        "0 0 42 535a030102015052000103000000000000005052010200000000000000000100000000000000\
         45440200",
    ),
    (
        "two pairs in 45 bytes",
        "0 0 42 535a030102015052000103000000000000005052010200000000000000000100000000000000\
         45440200d5d4d3",
    ),
];

/// Tables that the writer refuses, with number and place.
const NOT_WRITTEN: [(&str, u64, usize); 10] = [
    ("65 boats", 2, 0),
    ("size 0", 3, 1),
    ("size 65", 3, 0),
    ("1 pair byte", 4, 0),
    ("pair 0-2 of 2 boats", 51, 1),
    ("pair 1-1", 52, 1),
    ("pair 1-0", 53, 0),
    ("pairs 0-1, 0-1", 54, 2),
    ("2 row words for 1", 6, 0),
    ("row bit 1 of size 1", 7, 0),
];

/// So many bytes as they were before the call.
fn bytes_before(count: usize) -> String {
    (0..count).map(|byte| format!("{:02x}", 255 - byte % 256)).collect()
}

fn words_before(from: u64, to: u64) -> String {
    (from..to).map(|word| format!(",{:x}", u64::MAX - word)).collect()
}

fn long_replies() -> Vec<(String, String)> {
    let ones = |count: usize| "01".repeat(count);
    let five_words = words_before(0, 5).split_off(1);
    let four_words = words_before(0, 4).split_off(1);
    let (after_two, last_words) = (bytes_before(400).split_off(4), words_before(1, 400));
    let all = [
        ("read, 64 boats", format!("f 0 0 64 0 0 {} - -", ones(64))),
        ("read, 65 boats", format!("f 102 0 65 0 0 {} - -", ones(65))),
        ("read, 255 boats", format!("f 102 0 255 0 0 {}00 ff ffffffffffffffff", ones(255))),
        ("read, a PR of size 65 with 65 words", format!("f 103 0 2 2 65 4101 0001 1{}", ",1".repeat(64))),
        ("read, the example and 400 of each", {
            format!("f 0 0 2 2 1 0101{after_two} 0001{after_two} 1{last_words}")
        }),
        ("read, three pairs and 2 size bytes", format!("f 126 0 0 0 0 fffe fffefdfcfbfa {five_words}")),
        ("read, three pairs and 5 pair bytes", format!("f 126 0 0 0 0 fffefd fffefdfcfb {five_words}")),
        ("read, three pairs and 4 row words", format!("f 126 0 0 0 0 fffefd fffefdfcfbfa {four_words}")),
        ("read, 70 boats and 64 bytes", format!("f 126 0 0 0 0 {} - -", bytes_before(64))),
        ("read, 70 boats and 69 bytes", format!("f 126 0 0 0 0 {} - -", bytes_before(69))),
        ("read, 70 boats and 70 bytes", format!("f 102 0 70 0 0 {} - -", ones(70))),
        ("desk, 65 boats", format!("d 102 {} - -", ones(65))),
        ("write, 64 boats in 70 bytes", format!("w 126 0 0 {}", bytes_before(70))),
        ("write, 64 boats in 71 bytes", format!("w 0 0 71 535a40{}45440000", ones(64))),
        ("write, 64 boats in 74 bytes", format!("w 0 0 71 535a40{}45440000b8b7b6", ones(64))),
        ("write, three words in 36 bytes", format!("w 126 0 0 {}", bytes_before(36))),
        ("write, two pairs in 41 bytes", format!("w 126 0 0 {}", bytes_before(41))),
    ];
    all.into_iter().map(|(name, reply)| (name.to_string(), reply)).collect()
}

/// The reply due to each name.
fn due() -> BTreeMap<String, String> {
    let mut due: BTreeMap<String, String> = long_replies().into_iter().collect();
    for (name, number, place) in FAULTS {
        let reply = format!("f {} {place} 0 0 0 fffe fffe ffffffffffffffff", 100 + number);
        due.insert(format!("read, {name}"), reply);
    }
    for (name, reply) in EXAMINED.into_iter().chain(LENT) {
        due.insert(format!("read, {name}"), format!("f {reply}"));
    }
    due.extend(DESK.map(|(name, reply)| (format!("desk, {name}"), format!("d {reply}"))));
    for (name, number, place) in NOT_WRITTEN {
        let answer = 100 + number;
        due.insert(format!("write, {name} in 0 bytes"), format!("w {answer} {place} 0 -"));
        let untouched = bytes_before(30);
        due.insert(format!("write, {name} in 30 bytes"), format!("w {answer} {place} 0 {untouched}"));
    }
    due.extend(WRITTEN.map(|(name, reply)| (format!("write, {name}"), format!("w {reply}"))));
    due
}

fn stored(file: &str) -> String {
    let folder = concat!(env!("CARGO_MANIFEST_DIR"), "/../../crates/vectors/");
    fs::read_to_string(format!("{folder}{file}")).expect("a stored file")
}

/// The lines about files, each beside its reply.
fn lines(about: &str) -> Vec<(String, String)> {
    let (problems, replies) = (stored("stdin"), stored("stdout"));
    let lines = problems.lines().zip(replies.lines());
    let kept = lines.filter(|(problem, _)| about.contains(&problem[..1]));
    kept.map(|(problem, reply)| (problem.to_string(), reply.to_string())).collect()
}

#[test]
fn named_files_are_told_as_worked_out() {
    let due = due();
    let mut told = BTreeMap::new();
    for (problem, reply) in lines("wfd") {
        if let Some((_, name)) = problem.split_once(" # ") {
            told.insert(name.to_string(), reply);
        }
    }
    for (name, reply) in &due {
        assert_eq!(told.get(name), Some(reply), "{name}");
    }
    let without: Vec<&String> = told.keys().filter(|&name| !due.contains_key(name)).collect();
    assert!(without.is_empty(), "not worked out: {without:?}");
}

#[test]
fn the_example_is_the_documents() {
    let document = "53 5A 02 01 01 50 52 00 01 01 00 00 00 00 00 00 00 45 44 01 00";
    let file = document.to_lowercase().replace(' ', "");
    let example = format!("f {file} 2 2 1 # read, the example");
    assert!(lines("f").iter().any(|(problem, _)| *problem == example));
}

#[test]
fn every_answer_about_files() {
    let told: Vec<String> = lines("wfd").into_iter().map(|(_, reply)| reply).collect();
    let begins = |beginning: String| told.iter().filter(|reply| reply.starts_with(&beginning)).count();
    let examined = [102, 103, 107, 151, 152, 153, 154];
    for answer in (121..=126).chain(examined).chain([0]) {
        assert!(begins(format!("f {answer} ")) >= 10, "f {answer}");
        assert!(begins(format!("d {answer} ")) >= 2, "d {answer}");
    }
    for answer in [1, 110, 111] {
        assert!(begins(format!("d {answer} ")) >= 5, "d {answer}");
    }
    for answer in [104, 106, 126, 0].into_iter().chain(examined) {
        assert!(begins(format!("w {answer} ")) >= 10, "w {answer}");
    }
}

#[test]
fn files_and_lent_memory_are_short() {
    let bytes = |field: &str| field.trim_matches('-').len() / 2;
    for (problem, _) in lines("wfd") {
        let fields: Vec<&str> = problem.split(' ').collect();
        let lent = match fields[0] {
            "w" => 1..2,
            "f" => 2..5,
            _ => 3..6,
        };
        assert!(fields[0] == "w" || bytes(fields[1]) <= 2000, "{problem}");
        for field in &fields[lent] {
            assert!(field.parse::<usize>().expect("a length") <= 400, "{problem}");
        }
    }
    assert!(stored("stdin").len() < 1_900_000);
}

#[test]
fn names_of_files_are_there_once() {
    let lines = lines("twfd");
    let names: Vec<&str> =
        lines.iter().filter_map(|(problem, _)| Some(problem.split_once(" # ")?.1)).collect();
    let each: BTreeSet<&str> = names.iter().copied().collect();
    assert_eq!(names.len(), each.len());
}
