//! Lent memory: number 26 for each part alone, memory that is exact or longer, and what 26 comes before
//! and after.

use super::{example, read, Named, END, ENOUGH, NOTHING, PAIR, SIZES};
use crate::file::{ed, pr, sz};

pub fn named() -> Vec<Named> {
    let mut named = of_the_example();
    named.extend(of_several_pairs());
    named.extend(before_the_examination());
    named.extend(after_the_bytes());
    named
}

fn of_the_example() -> Vec<Named> {
    let of = |name: &str, lent| read(&format!("the example and {name}"), &example(), lent);
    vec![
        of("a size byte too few", (1, 2, 1)),
        of("a pair byte too few", (2, 1, 1)),
        of("a row word too few", (2, 2, 0)),
        of("one too few of each", (1, 1, 0)),
        of("nothing lent", NOTHING),
        of("more of sizes alone", (5, 1, 1)),
        of("a size byte more", (3, 2, 1)),
        of("a pair byte more", (2, 3, 1)),
        of("a row word more", (2, 2, 2)),
        of("three more of each", (5, 5, 4)),
        of("400 of each", (400, 400, 400)),
    ]
}

/// Sizes 2, 1, 2 with the pairs 0-1, 0-2 and 1-2 need 3 bytes, 6 bytes and 5 words.
fn of_several_pairs() -> Vec<Named> {
    let pairs = [pr(0, 1, &[0, 1]), pr(0, 2, &[1, 2]), pr(1, 2, &[3])].concat();
    let file = [sz(&[2, 1, 2]), pairs, ed(3)].concat();
    let of = |name: &str, lent| read(&format!("three pairs and {name}"), &file, lent);
    vec![
        of("just enough", (3, 6, 5)),
        of("2 size bytes", (2, 6, 5)),
        of("5 pair bytes", (3, 5, 5)),
        of("4 row words", (3, 6, 4)),
        of("one more of each", (4, 7, 6)),
    ]
}

fn before_the_examination() -> Vec<Named> {
    let boats = |count: usize| [sz(&vec![1; count]), ed(0)].concat();
    let of_equal_boats = [SIZES, &pr(0, 0, &[1]), END].concat();
    let too_wide = [SIZES, &pr(0, 1, &[2]), END].concat();
    vec![
        read("70 boats and 64 bytes", &boats(70), (64, 0, 0)),
        read("70 boats and 69 bytes", &boats(70), (69, 0, 0)),
        read("70 boats and 70 bytes", &boats(70), (70, 0, 0)),
        read("size 0 and no byte", &[sz(&[0]), ed(0)].concat(), NOTHING),
        read("boats 0 and 0 and one pair byte", &of_equal_boats, (2, 1, 1)),
        read("row bit 1 of size 1 and no row word", &too_wide, (2, 2, 0)),
    ]
}

fn after_the_bytes() -> Vec<Named> {
    let of = |name: &str, file: &[u8]| read(&format!("{name} and nothing lent"), file, NOTHING);
    vec![
        of("XX after the sizes", &[SIZES, b"XX"].concat()),
        of("no ED", &[SIZES, PAIR].concat()),
        of("lower boat 9", &[SIZES, b"PR\x09"].concat()),
        of("count 2 of 1", &[SIZES, PAIR, b"ED\x02\0"].concat()),
        of("a byte after ED", &[SIZES, PAIR, END, b"\0"].concat()),
        read("count 2 of 1 and one too few of each", &[SIZES, PAIR, b"ED\x02\0"].concat(), (1, 1, 0)),
        read("the example once more, after all these", &example(), ENOUGH),
    ]
}
