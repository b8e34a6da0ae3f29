//! The desk's question: lawful or not, and its refusals in their order, with what then stands in the
//! lent memory.

use super::{ask, example, Named, END, ENOUGH, NOTHING, PAIR, SIZES};
use crate::file::{ed, pr, sz};

pub fn named() -> Vec<Named> {
    let mut named = of_the_example();
    named.extend(of_case_d());
    named.extend(of_other_tables());
    named.extend(of_bytes());
    named
}

fn of_the_example() -> Vec<Named> {
    let of = |plan: &[u8]| {
        let told: Vec<String> = plan.iter().map(u8::to_string).collect();
        ask(&format!("the example, plan [{}]", told.join(", ")), &example(), plan, ENOUGH)
    };
    vec![
        of(&[0, 0]),
        of(&[]),
        of(&[0]),
        of(&[0, 0, 0]),
        of(&[9]),
        of(&[0, 1]),
        of(&[1, 0]),
        of(&[255, 255]),
        ask("the example and three more of each", &example(), &[0, 0], (5, 5, 4)),
        ask("the example and three more of each, plan [1, 0]", &example(), &[1, 0], (5, 5, 4)),
    ]
}

/// Case D has no lawful plan; without its last pair it has.
fn of_case_d() -> Vec<Named> {
    let first_two = [sz(&[2, 2, 2]), pr(0, 1, &[2, 1]), pr(0, 2, &[2, 1])].concat();
    let all = [&first_two[..], &pr(1, 2, &[2, 1]), &ed(3)].concat();
    let two = [&first_two[..], &ed(2)].concat();
    vec![
        ask("D, plan [0, 1, 1]", &all, &[0, 1, 1], (3, 6, 6)),
        ask("D, plan [0, 0, 1]", &all, &[0, 0, 1], (3, 6, 6)),
        ask("D without 1-2, plan [0, 1, 1]", &two, &[0, 1, 1], (3, 4, 4)),
        ask("D without 1-2, plan [0, 2, 1]", &two, &[0, 2, 1], (3, 4, 4)),
    ]
}

fn of_other_tables() -> Vec<Named> {
    let row = |word: u64| [SIZES, &pr(0, 1, &[word]), END].concat();
    let boats = |count: usize| [sz(&vec![1; count]), ed(0)].concat();
    let turned = [SIZES, &pr(1, 0, &[1]), END].concat();
    vec![
        ask("the pair not allowed, plan [0, 0]", &row(0), &[0, 0], ENOUGH),
        ask("row bit 1 of size 1", &row(2), &[0, 0], ENOUGH),
        ask("row bit 1 of size 1, plan [9]", &row(2), &[9], ENOUGH),
        ask("boats 1 and 0, plan [0, 0]", &turned, &[0, 0], ENOUGH),
        ask("no boat, no slot", &boats(0), &[], NOTHING),
        ask("no boat, plan [0]", &boats(0), &[0], (1, 1, 1)),
        ask("65 boats", &boats(65), &[0; 65], (65, 0, 0)),
        ask("size 0, plan [0]", &[sz(&[0]), ed(0)].concat(), &[0], (1, 0, 0)),
    ]
}

/// 21 to 26, with plans that would be refused too.
fn of_bytes() -> Vec<Named> {
    vec![
        ask("no byte", b"", &[0, 0], ENOUGH),
        ask("XX after the sizes", &[SIZES, b"XX"].concat(), &[9], ENOUGH),
        ask("no ED", &[SIZES, PAIR].concat(), &[9], ENOUGH),
        ask("lower boat 9", &[SIZES, b"PR\x09"].concat(), &[9], ENOUGH),
        ask("count 2 of 1", &[SIZES, PAIR, b"ED\x02\0"].concat(), &[9], ENOUGH),
        ask("a byte after ED", &[SIZES, PAIR, END, b"\0"].concat(), &[9], NOTHING),
        ask("a size byte too few", &example(), &[9], (1, 2, 1)),
        ask("a pair byte too few", &example(), &[0, 0], (2, 1, 1)),
        ask("a row word too few", &example(), &[0, 0], (2, 2, 0)),
        ask("boats 0 and 0 and no row word", &[SIZES, &pr(0, 0, &[1]), END].concat(), &[], (2, 2, 0)),
    ]
}
