//! Files without a fault in their bytes, read and then examined; what is refused there stays standing.

use super::{example, read, Named, END, SIZES};
use crate::file::{ed, pr, sz};

pub fn named() -> Vec<Named> {
    let mut named = vec![read("the example", &example(), (2, 2, 1))];
    named.extend(of_boats());
    named.extend(of_sizes());
    named.extend(of_pairs());
    named.extend(of_rows());
    named
}

fn of_boats() -> Vec<Named> {
    let boats = |count: usize| [sz(&vec![1; count]), ed(0)].concat();
    vec![
        read("no boat", &boats(0), (0, 0, 0)),
        read("no boat, memory for one", &boats(0), (1, 1, 1)),
        read("one boat", &boats(1), (1, 0, 0)),
        read("64 boats", &boats(64), (64, 0, 0)),
        read("65 boats", &boats(65), (65, 0, 0)),
        read("255 boats", &boats(255), (256, 1, 1)),
    ]
}

fn of_sizes() -> Vec<Named> {
    let size = |size: u8| [sz(&[size]), ed(0)].concat();
    let of_65 = [sz(&[65, 1]), pr(0, 1, &[1; 65]), ed(1)].concat();
    vec![
        read("size 0", &size(0), (1, 0, 0)),
        read("size 64", &size(64), (1, 0, 0)),
        read("size 65", &size(65), (1, 0, 0)),
        read("size 255", &size(255), (1, 0, 0)),
        read("sizes 1, 0, 65", &[sz(&[1, 0, 65]), ed(0)].concat(), (3, 0, 0)),
        read("a PR of size 0 without words", b"SZ\x02\x00\x01PR\x00\x01ED\x01\0", (2, 2, 0)),
        read("two PRs of size 0", b"SZ\x02\x00\x01PR\x00\x01PR\x00\x01ED\x02\0", (2, 4, 0)),
        read("a PR of size 65 with 65 words", &of_65, (2, 2, 65)),
    ]
}

fn of_pairs() -> Vec<Named> {
    let one = |lower, higher| [SIZES, &pr(lower, higher, &[1]), END].concat();
    let two = |(one, other), (next, after)| {
        [sz(&[1, 1, 1]), pr(one, other, &[1]), pr(next, after, &[0]), ed(2)].concat()
    };
    vec![
        read("higher boat 2 of 2", &one(0, 2), (2, 2, 1)),
        read("higher boat 255 of 2", &one(1, 255), (2, 2, 1)),
        read("boats 0 and 0", &one(0, 0), (2, 2, 1)),
        read("boats 1 and 0", &one(1, 0), (2, 2, 1)),
        read("pairs 0-1, 1-2", &two((0, 1), (1, 2)), (3, 4, 2)),
        read("pairs 0-2, 0-1", &two((0, 2), (0, 1)), (3, 4, 2)),
        read("pairs 1-2, 0-2", &two((1, 2), (0, 2)), (3, 4, 2)),
        read("pairs 0-1, 0-1", &two((0, 1), (0, 1)), (3, 4, 2)),
        read("pairs 0-1, 2-1", &two((0, 1), (2, 1)), (3, 4, 2)),
        read("pairs 0-1, 0-9 of 3 boats", &two((0, 1), (0, 9)), (3, 4, 2)),
    ]
}

/// The words of the second and the third name each of their bytes.
fn of_rows() -> Vec<Named> {
    let row = |word: u64| [SIZES, &pr(0, 1, &[word]), END].concat();
    let higher_of_64 = b"SZ\x02\x01\x40PR\x00\x01\x01\x02\x03\x04\x05\x06\x07\x88ED\x01\0";
    let words = b"\x01\0\0\0\0\0\0\0\0\0\0\0\0\0\0\x80\xF0\xE1\xD2\xC3\xB4\xA5\x96\x87";
    let three = [b"SZ\x02\x03\x40PR\x00\x01", &words[..], END].concat();
    vec![
        read("a word of eight bytes", higher_of_64, (2, 2, 1)),
        read("three words", &three, (2, 2, 3)),
        read("row bit 1 of size 1", &row(2), (2, 2, 1)),
        read("row bits 0 and 63 of size 1", &row(1 << 63 | 1), (2, 2, 1)),
        read("a row of zeros", &row(0), (2, 2, 1)),
    ]
}
