//! Runs on tables of their own: at the limits, with long counts, and with the examination's numbers,
//! alone and before other numbers.

use super::{by, by_all, group, Group, AMPLE, ROOMY};

pub fn groups() -> Vec<Group> {
    let mut groups = vec![long_counts()];
    groups.extend(what_just_passes());
    groups.extend(refused_for_sizes());
    groups.extend(refused_for_pairs());
    groups.extend(refused_for_rows());
    groups
}

/// More checks and trials than two bytes count. Boat i forbids slot i of boat 3 whatever its own slot:
/// all three are to blame, so no method can jump over one.
fn long_counts() -> Group {
    let name = "41 slots three times";
    let rows = [[6; 41], [5; 41], [3; 41]].concat();
    group(name, &[41, 41, 41, 3], &[0, 3, 1, 3, 2, 3], &rows, by_all(name, AMPLE, ROOMY))
}

fn what_just_passes() -> Vec<Group> {
    let of = |name: &str, sizes: &[u8], pairs: &[u8], rows: &[u64]| {
        group(name, sizes, pairs, rows, by_all(name, AMPLE, ROOMY))
    };
    let mut only_63 = [0; 64];
    only_63[63] = 1;
    vec![
        of("64 boats and 62-63 allows nothing", &[1; 64], &[62, 63], &[0]),
        of("size 64", &[64], &[], &[]),
        of("sizes 64 1 and 0-1 allows only 63 0", &[64, 1], &[0, 1], &only_63),
    ]
}

/// Also with no method, and with no memory, which come before and after.
fn refused_for_sizes() -> Vec<Group> {
    let name = "65 boats of size 0 and 3 pair bytes and no memory";
    let all_at_once = vec![by(0, name, (0, 0)), by(3, name, (0, 0))];
    vec![
        group("", &[65], &[], &[], vec![by(2, "size 65", ROOMY)]),
        group("", &[0; 65], &[], &[], vec![by(1, "65 boats of size 0", ROOMY)]),
        group("", &[0, 2], &[0, 1, 0], &[], vec![by(2, "size 0 and 3 pair bytes", ROOMY)]),
        group("", &[0; 65], &[0, 1, 0], &[], all_at_once),
    ]
}

fn refused_for_pairs() -> Vec<Group> {
    let of = |pairs: &[u8], rows: &[u64], named| group("", &[2, 2], pairs, rows, vec![named]);
    vec![
        of(&[0, 1, 0], &[2, 1], by(4, "3 pair bytes", ROOMY)),
        of(&[0, 1, 1, 0], &[2, 1], by(5, "pairs 0-1 1-0", ROOMY)),
        of(&[1, 0, 0], &[2], by(4, "3 pair bytes and pair 1-0", ROOMY)),
        of(&[1, 0], &[2], by(5, "pair 1-0 and 1 row word for 2", ROOMY)),
    ]
}

fn refused_for_rows() -> Vec<Group> {
    let of = |rows: &[u64], named| group("", &[2, 2], &[0, 1], rows, named);
    let short_memory = vec![
        by(2, "bit 2 in row word 0 and 1 plan byte", (1, 8200)),
        by(3, "bit 2 in row word 0 and 8191 words", (72, 8191)),
    ];
    vec![
        of(&[2], vec![by(1, "1 row word for 2", ROOMY)]),
        of(&[2, 4], vec![by(2, "bit 2 in row word 1", ROOMY)]),
        of(&[4], vec![by(1, "1 row word for 2 and its bit 2", ROOMY)]),
        of(&[4, 1], short_memory),
    ]
}
