//! Numbers 21 to 25: each fault of the bytes with its place, all with memory enough for the example.

use super::{read, Named, END, ENOUGH, PAIR, SIZES};

pub fn named() -> Vec<Named> {
    let mut named = at_the_start();
    named.extend(after_the_sizes());
    named.extend(inside_a_pair());
    named.extend(at_the_end());
    named.extend(other_marks());
    named
}

fn of(name: &str, file: &[u8]) -> Named {
    read(name, file, ENOUGH)
}

fn at_the_start() -> Vec<Named> {
    vec![
        of("no byte", b""),
        of("S alone", b"S"),
        of("X alone", b"X"),
        of("XX", b"XX"),
        of("SZ cut before n", b"SZ"),
        of("SZ cut after n", b"SZ\x02"),
        of("sizes cut", b"SZ\x02\x01"),
        of("255 sizes cut", b"SZ\xFF\x01\x01"),
        of("PR first", &[PAIR, SIZES, END].concat()),
        of("ED first", b"ED\0\0"),
        of("ED before SZ", &[b"ED\0\0", SIZES, PAIR, END].concat()),
    ]
}

fn after_the_sizes() -> Vec<Named> {
    vec![
        of("no ED and no PR", SIZES),
        of("no ED after a PR", &[SIZES, PAIR].concat()),
        of("P alone after the sizes", &[SIZES, b"P"].concat()),
        of("X alone after the sizes", &[SIZES, b"X"].concat()),
        of("XX and no more after the sizes", &[SIZES, b"XX"].concat()),
        of("a second SZ", &[SIZES, SIZES, PAIR, END].concat()),
        of("a second SZ after the PR", &[SIZES, PAIR, SIZES, END].concat()),
        of("a byte between SZ and PR", &[SIZES, b"\0", PAIR, END].concat()),
        of("one size more than n", &[b"SZ\x01\x01\x01", PAIR, END].concat()),
    ]
}

fn inside_a_pair() -> Vec<Named> {
    let word = &[1, 0, 0, 0, 0, 0, 0, 0];
    let cut = |name: &str, rest: &[u8]| of(name, &[SIZES, b"PR", rest].concat());
    let bad = |name: &str, boats: &[u8]| of(name, &[SIZES, b"PR", boats, word, END].concat());
    vec![
        cut("PR cut before its lower boat", b""),
        cut("PR cut after a lower boat 9", b"\x09"),
        cut("PR cut before its higher boat", b"\x00"),
        cut("PR cut before its word", b"\x00\x01"),
        cut("PR cut after a byte of its word", b"\x00\x01\x01"),
        cut("PR cut before the last byte of its word", b"\x00\x01\x01\0\0\0\0\0\0"),
        bad("lower boat 2 of 2", b"\x02\x01"),
        bad("lower boat 9 of 2", b"\x09\x01"),
        bad("lower boat 255 of 2", b"\xFF\x01"),
        bad("both boats 9 of 2", b"\x09\x09"),
        of("lower boat 9 of 2 in the second PR", &[SIZES, PAIR, b"PR\x09\x01", END].concat()),
        of("lower boat 0 of none", &[b"SZ\0", PAIR, END].concat()),
        of("word cut by ED", &[SIZES, b"PR\x00\x01\x01\0\0\0", END].concat()),
        of("one word more than slots", &[SIZES, PAIR, word, END].concat()),
    ]
}

fn at_the_end() -> Vec<Named> {
    let of = |name: &str, end: &[u8]| of(name, &[SIZES, PAIR, end].concat());
    vec![
        of("E alone", b"E"),
        of("ED cut before its count", b"ED"),
        of("ED cut inside the right count", b"ED\x01"),
        of("ED cut inside a wrong count", b"ED\x09"),
        of("count 0 of 1", b"ED\x00\0"),
        of("count 2 of 1", b"ED\x02\0"),
        of("count 257 of 1", b"ED\x01\x01"),
        of("count 256 of 1", b"ED\x00\x01"),
        of("wrong count and a byte after", b"ED\x02\0\0"),
        of("wrong count and a PR after", &[b"ED\x02\0", PAIR].concat()),
        of("a zero byte after ED", b"ED\x01\0\0"),
        of("a PR after ED", &[END, PAIR].concat()),
        of("an SZ after ED", &[END, SIZES].concat()),
        of("a second ED", &[END, END].concat()),
        of("P alone after ED", b"ED\x01\0P"),
    ]
}

/// Marks of later requests, in small letters, turned, and half right.
fn other_marks() -> Vec<Named> {
    let start = |mark: &[u8]| [mark, &SIZES[2..], PAIR, END].concat();
    let pair = |mark: &[u8]| [SIZES, mark, &PAIR[2..], END].concat();
    let end = |mark: &[u8]| [SIZES, PAIR, mark, &END[2..]].concat();
    let open = b"OP\x01\0\0\0\0\0\0\0\x01\0\0\0\0\0\0\0";
    vec![
        of("WL", &[SIZES, b"WL\0\0", PAIR, END].concat()),
        of("OP", &[SIZES, open, PAIR, END].concat()),
        of("sz", &start(b"sz")),
        of("pr", &pair(b"pr")),
        of("ed", &end(b"ed")),
        of("ZS", &start(b"ZS")),
        of("RP", &pair(b"RP")),
        of("DE", &end(b"DE")),
        of("SD", &start(b"SD")),
        of("PD", &pair(b"PD")),
        of("ER", &end(b"ER")),
        of("SZ for ED", &end(b"SZ")),
    ]
}
