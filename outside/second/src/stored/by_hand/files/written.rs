//! The writer: the example and other tables in rooms that are short, exact or longer, and tables that
//! the examination refuses, with room and without.

use super::{group, write, Group, Named};

pub fn groups() -> Vec<Group> {
    let mut groups = sound();
    groups.extend(refused());
    groups
}

fn sound() -> Vec<Group> {
    let example = vec![
        write("the example in 21 bytes", 21),
        write("the example in 20 bytes", 20),
        write("the example in 22 bytes", 22),
        write("the example in no byte", 0),
    ];
    let words = [1, 1 << 63, 0x8796_A5B4_C3D2_E1F0];
    vec![
        group("the example's tables", &[1, 1], &[0, 1], &[1], example),
        group("tables of no boat, to be written", &[], &[], &[], in_about("no boat", 7)),
        group("64 boats to be written", &[1; 64], &[], &[], in_about("64 boats", 71)),
        group("three words to be written", &[3, 64], &[0, 1], &words, in_about("three words", 37)),
        group("two pairs to be written", &[1, 2, 1], &[0, 1, 1, 2], &[3, 0, 1], in_about("two pairs", 42)),
    ]
}

/// One byte too few, just enough, and three more.
fn in_about(name: &str, bytes: usize) -> Vec<Named> {
    [bytes - 1, bytes, bytes + 3].map(|room| write(&format!("{name} in {room} bytes"), room)).into()
}

/// Each of the examination's numbers, before 26 and without it.
fn refused() -> Vec<Group> {
    let of = |name: &str, sizes: &[u8], pairs: &[u8], rows: &[u64]| {
        let named = [0, 30].map(|room| write(&format!("{name} in {room} bytes"), room));
        group("", sizes, pairs, rows, named.into())
    };
    vec![
        of("65 boats", &[1; 65], &[], &[]),
        of("size 0", &[1, 0], &[], &[]),
        of("size 65", &[65], &[], &[]),
        of("1 pair byte", &[1, 1], &[0], &[]),
        of("pair 0-2 of 2 boats", &[1, 1], &[0, 2], &[1]),
        of("pair 1-1", &[1, 1], &[1, 1], &[1]),
        of("pair 1-0", &[1, 1], &[1, 0], &[1]),
        of("pairs 0-1, 0-1", &[1, 1], &[0, 1, 0, 1], &[1, 1]),
        of("2 row words for 1", &[1, 1], &[0, 1], &[1, 1]),
        of("row bit 1 of size 1", &[1, 1], &[0, 1], &[2]),
    ]
}
