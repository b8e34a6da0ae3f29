//! The document's harbour cases A to G and the further vectors V1 to V11, with what is expected.

use crate::tables::Tables;

pub struct Case {
    pub name: &'static str,
    pub tables: Tables,
    /// The first lawful plan, or none.
    pub plan: Option<Vec<u8>>,
    /// (checks, trials) for BT, CBJ, BM, FC, FC-CBJ.
    pub counts: [(u64, u64); 5],
}

type Pair<'a> = (u8, u8, &'a [u64]);
type Counts = [(u64, u64); 5];

pub fn tables(sizes: &[u8], pairs: &[Pair]) -> Tables {
    let mut tables = Tables { sizes: sizes.to_vec(), ..Tables::default() };
    for (lower, higher, rows) in pairs {
        tables.pairs.extend([lower, higher]);
        tables.rows.extend_from_slice(rows);
    }
    tables
}

fn case(name: &'static str, sizes: &[u8], pairs: &[Pair], plan: Option<&[u8]>, counts: Counts) -> Case {
    Case { name, tables: tables(sizes, pairs), plan: plan.map(<[u8]>::to_vec), counts }
}

pub fn harbour_d() -> Tables {
    tables(&[2, 2, 2], &[(0, 1, &[2, 1]), (0, 2, &[2, 1]), (1, 2, &[2, 1])])
}

pub fn harbour_e() -> Tables {
    tables(&[2, 2, 1], &[(0, 2, &[0, 1])])
}

pub fn harbour_cases() -> Vec<Case> {
    let g: [Pair; 3] = [(1, 2, &[2, 1]), (1, 3, &[2, 1]), (2, 3, &[2, 1])];
    let d_counts = [(10, 10), (10, 10), (10, 10), (10, 4), (10, 4)];
    let e_counts = [(3, 8), (2, 6), (2, 8), (2, 4), (2, 4)];
    let f_counts = [(4, 10), (2, 6), (2, 10), (2, 2), (2, 2)];
    let g_counts = [(20, 22), (10, 11), (20, 22), (20, 10), (10, 5)];
    vec![
        case("A", &[], &[], Some(&[]), [(0, 0); 5]),
        case("B", &[1], &[], Some(&[0]), [(0, 1); 5]),
        case("C", &[2, 2], &[(0, 1, &[2, 1])], Some(&[0, 1]), [(2, 3), (2, 3), (2, 3), (2, 2), (2, 2)]),
        Case { name: "D", tables: harbour_d(), plan: None, counts: d_counts },
        Case { name: "E", tables: harbour_e(), plan: Some(vec![1, 0, 0]), counts: e_counts },
        case("F", &[2, 2, 1], &[(0, 2, &[0, 0])], None, f_counts),
        case("G", &[2, 2, 2, 2], &g, None, g_counts),
    ]
}

pub fn further_cases() -> Vec<Case> {
    let mut cases = vec![v1(), v2(), v3(), v4(), v5()];
    cases.extend([v6(), v7(), v8(), v9(), v10(), v11()]);
    cases
}

fn v1() -> Case {
    let counts = [(5, 7), (5, 7), (5, 7), (6, 5), (6, 5)];
    case("V1", &[2, 2, 1], &[(0, 1, &[2, 3]), (1, 2, &[1, 0])], Some(&[1, 0, 0]), counts)
}

fn v2() -> Case {
    let pairs: [Pair; 3] = [(0, 2, &[1]), (0, 3, &[1]), (1, 3, &[0, 1])];
    let counts = [(6, 7), (6, 7), (4, 7), (4, 5), (4, 5)];
    case("V2", &[1, 2, 1, 1], &pairs, Some(&[0, 1, 0, 0]), counts)
}

fn v3() -> Case {
    let counts = [(1, 2), (1, 2), (1, 2), (1, 1), (1, 1)];
    case("V3", &[1, 1, 1], &[(0, 1, &[0]), (0, 2, &[0])], None, counts)
}

fn v4() -> Case {
    let counts = [(4, 6), (2, 3), (4, 6), (4, 4), (2, 2)];
    case("V4", &[2, 1, 1], &[(0, 1, &[1, 1]), (1, 2, &[0])], None, counts)
}

fn v5() -> Case {
    let counts = [(7, 9), (7, 9), (7, 9), (7, 6), (7, 6)];
    case("V5", &[2, 2, 1], &[(0, 1, &[1, 3]), (1, 2, &[0, 1])], Some(&[1, 1, 0]), counts)
}

fn v6() -> Case {
    let pairs: [Pair; 4] = [(0, 2, &[2, 1, 2]), (1, 2, &[1, 2]), (1, 4, &[3, 2]), (3, 4, &[1])];
    let counts = [(13, 15), (13, 15), (11, 15), (14, 10), (14, 10)];
    case("V6", &[3, 2, 2, 1, 2], &pairs, Some(&[1, 0, 0, 0, 0]), counts)
}

fn v7() -> Case {
    let counts = [(3, 5), (3, 5), (3, 5), (4, 3), (4, 3)];
    case("V7", &[2, 2], &[(0, 1, &[0, 3])], Some(&[1, 0]), counts)
}

fn v8() -> Case {
    let pairs: [Pair; 4] = [(0, 2, &[2]), (0, 3, &[1]), (1, 2, &[1, 2]), (2, 3, &[1, 0])];
    let counts = [(8, 8), (8, 8), (6, 8), (6, 4), (6, 4)];
    case("V8", &[1, 2, 2, 1], &pairs, None, counts)
}

fn v9() -> Case {
    let from_0: [Pair; 3] = [(0, 1, &[3]), (0, 2, &[3]), (0, 3, &[3])];
    let later: [Pair; 3] = [(1, 2, &[1, 3]), (1, 3, &[6, 7]), (2, 3, &[5, 6])];
    let counts = [(17, 10), (17, 10), (15, 10), (18, 6), (18, 6)];
    case("V9", &[1, 2, 2, 3], &[from_0, later].concat(), Some(&[0, 1, 0, 0]), counts)
}

fn v10() -> Case {
    let counts = [(4, 7), (3, 5), (4, 7), (4, 4), (3, 3)];
    case("V10", &[3, 1, 1], &[(0, 1, &[0, 1, 0]), (1, 2, &[0])], None, counts)
}

fn v11() -> Case {
    let counts = [(3, 6), (2, 3), (3, 6), (3, 3), (2, 2)];
    case("V11", &[2, 1, 1], &[(0, 2, &[1, 0]), (1, 2, &[0])], None, counts)
}
