//! Tables to be examined: the examination's numbers with their places, several at once, and parts of rows.

use super::{by, by_all, group, plan, rows, Group, AMPLE, ROOMY};
use crate::tables::MOST_PAIRS;

pub fn groups() -> Vec<Group> {
    let mut groups = of_sizes();
    groups.extend(of_pairs());
    groups.extend(of_bad_pairs());
    groups.extend(of_rows());
    groups.extend(of_top_bits());
    groups.extend(of_several());
    groups
}

fn of_sizes() -> Vec<Group> {
    let ran_65 = vec![by(1, "65 boats", ROOMY), by(6, "65 boats", ROOMY)];
    vec![
        group("no boat", &[], &[], &[], vec![]),
        group("64 boats", &[1; 64], &[], &[], by_all("64 boats", AMPLE, ROOMY)),
        group("65 boats", &[1; 65], &[], &[], ran_65),
        group("sizes 64, 1", &[64, 1], &[], &[], vec![]),
        group("sizes 1, 1, 65", &[1, 1, 65], &[], &[], vec![]),
        group("sizes 1, 0, 65", &[1, 0, 65], &[], &[], vec![by(3, "sizes 1 0 65", ROOMY)]),
        group("size 255", &[255], &[], &[], vec![]),
    ]
}

fn of_pairs() -> Vec<Group> {
    let lists: [(&str, &[u8]); 10] = [
        ("1 pair byte", &[0]),
        ("3 pair bytes", &[0, 1, 0]),
        ("pair 1-0", &[1, 0]),
        ("pair 1-1", &[1, 1]),
        ("pair 0-3 of 3 boats", &[0, 3]),
        ("pair 255-255", &[255, 255]),
        ("pairs 0-1, 0-1", &[0, 1, 0, 1]),
        ("pairs 0-2, 0-1", &[0, 2, 0, 1]),
        ("pairs 0-1, 1-2, 0-2", &[0, 1, 1, 2, 0, 2]),
        ("pairs 0-1, 2-1, 1-0", &[0, 1, 2, 1, 1, 0]),
    ];
    lists.into_iter().map(of_three_boats).collect()
}

fn of_three_boats((name, pairs): (&str, &[u8])) -> Group {
    group(name, &[1, 1, 1], pairs, &[], vec![])
}

/// Which pair speaks, which of its faults, and which of its bytes.
fn of_bad_pairs() -> Vec<Group> {
    let equal = [0, 1].repeat(MOST_PAIRS + 1);
    let lists: [(&str, &[u8]); 10] = [
        ("pairs 0-1, 0-9 of 3 boats", &[0, 1, 0, 9]),
        ("pair 9-9 of 3 boats", &[9, 9]),
        ("pair 9-0 of 3 boats", &[9, 0]),
        ("pair 0-9 of 3 boats", &[0, 9]),
        ("pairs 1-0, 9-9 of 3 boats", &[1, 0, 9, 9]),
        ("pairs 0-1, 1-1", &[0, 1, 1, 1]),
        ("pairs 1-2, 0-0", &[1, 2, 0, 0]),
        ("pairs 1-2, 1-0", &[1, 2, 1, 0]),
        ("pairs 1-2, 0-9 of 3 boats", &[1, 2, 0, 9]),
        ("2017 equal pairs", &equal),
    ];
    let mut groups: Vec<Group> = lists.into_iter().map(of_three_boats).collect();
    // Below by the lower boat alone.
    groups.push(group("pairs 1-2, 0-3 of 4 boats", &[1; 4], &[1, 2, 0, 3], &[], vec![]));
    groups
}

fn of_rows() -> Vec<Group> {
    let shown = vec![
        rows("rows of 0-1", 0, 1),
        rows("rows of 1-2", 1, 2),
        rows("rows of 0-2, not listed", 0, 2),
        rows("rows of 1-0", 1, 0),
        rows("rows of 1-1", 1, 1),
        rows("rows of 1-257", 1, 257),
        rows("rows of 300-301", 300, 301),
    ];
    let refused = vec![rows("rows of 0-1, tables refused", 0, 1)];
    let of = |name: &str, rows: &[u64], named| group(name, &[2, 3, 2], &[0, 1, 1, 2], rows, named);
    vec![
        of("4 row words for 5", &[1; 4], vec![]),
        of("6 row words for 5", &[1; 6], vec![]),
        of("5 row words, all bits within", &[7, 7, 3, 3, 3], shown),
        of("bit 2 where size 2 ends, in words 2 and 4", &[7, 7, 4, 3, 4], vec![]),
        of("every word too wide", &[8, 8, 4, 4, 4], refused),
    ]
}

fn of_top_bits() -> Vec<Group> {
    let top = [1 << 63];
    let ran = by_all("sizes 1 64 and 0-1 allows only 0 63", AMPLE, ROOMY);
    vec![
        group("bit 63 of size 64", &[1, 64], &[0, 1], &top, ran),
        group("bit 63 of size 63", &[1, 63], &[0, 1], &top, vec![]),
    ]
}

/// The first test that applies is the one that speaks.
fn of_several() -> Vec<Group> {
    let wide = [255, 255];
    let judged = vec![plan("a row too wide, plan 0, 1", &[0, 1])];
    vec![
        group("65 boats of size 0, odd pair bytes", &[0; 65], &[1, 0, 9], &wide, vec![]),
        group("size 0, odd pair bytes", &[0, 1], &[1, 0, 9], &wide, vec![]),
        group("odd pair bytes, pair 1-0", &[1, 1], &[1, 0, 9], &wide, vec![]),
        group("pair 1-0, two rows for one", &[1, 1], &[1, 0], &wide, vec![]),
        group("pair 0-2 of 2 boats, two rows for one, high bits", &[1, 1], &[0, 2], &wide, vec![]),
        group("two rows for one, high bits", &[1, 1], &[0, 1], &wide, vec![]),
        group("", &[2, 2, 2], &[0, 1, 0, 2, 1, 2], &[4, 1, 2, 1, 2, 1], judged),
    ]
}
