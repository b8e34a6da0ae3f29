//! Numbers 1 to 9, with 51 to 54 for 5: each with its place, and the first in the order of the tests when
//! several apply.

use second::answer::{Answer, Refusal};
use second::examine::examine;
use second::run::run;
use second::tables::Tables;
use second::vectors::tables;

fn found(tables: &Tables) -> Option<(u64, usize)> {
    examine(tables).err().map(|refusal| (refusal.number, refusal.place))
}

fn good() -> Tables {
    tables(&[2, 3, 64], &[(0, 1, &[7, 0]), (0, 2, &[u64::MAX, 1]), (1, 2, &[0, 1, 2])])
}

#[test]
fn sound_tables_pass() {
    assert_eq!(found(&good()), None);
    assert_eq!(found(&Tables::default()), None);
}

#[test]
fn boats_and_sizes() {
    assert_eq!(found(&Tables { sizes: vec![1; 64], ..Tables::default() }), None);
    assert_eq!(found(&Tables { sizes: vec![0; 65], ..Tables::default() }), Some((2, 0)));
    assert_eq!(found(&Tables { sizes: vec![1, 64, 65, 0], ..Tables::default() }), Some((3, 2)));
    assert_eq!(found(&Tables { sizes: vec![1, 0], ..Tables::default() }), Some((3, 1)));
}

#[test]
fn pair_bytes() {
    assert_eq!(found(&Tables { pairs: vec![0], ..good() }), Some((4, 0)));
    assert_eq!(found(&Tables { pairs: vec![9; 4034], ..good() }), Some((4, 0)));
    assert_eq!(found(&Tables { pairs: vec![9; 4032], ..good() }), Some((51, 0)));
    assert_eq!(found(&Tables { pairs: [0, 1].repeat(2017), ..good() }), Some((4, 0)));
    assert_eq!(found(&Tables { pairs: [0, 1].repeat(2016), ..good() }), Some((54, 2)));
}

/// Three boats with these pairs.
fn of_pairs(pairs: &[u8]) -> Option<(u64, usize)> {
    found(&Tables { pairs: pairs.to_vec(), ..good() })
}

#[test]
fn a_boat_that_does_not_exist() {
    assert_eq!(of_pairs(&[0, 3]), Some((51, 1)));
    assert_eq!(of_pairs(&[3, 4]), Some((51, 0)));
    assert_eq!(of_pairs(&[0, 9]), Some((51, 1)));
    assert_eq!(of_pairs(&[9, 0]), Some((51, 0)));
    assert_eq!(of_pairs(&[9, 9]), Some((51, 0)));
    assert_eq!(of_pairs(&[255, 254]), Some((51, 0)));
    assert_eq!(of_pairs(&[0, 1, 0, 9]), Some((51, 3)));
    assert_eq!(of_pairs(&[0, 1, 9, 0]), Some((51, 2)));
    assert_eq!(of_pairs(&[0, 1, 9, 9]), Some((51, 2)));
    assert_eq!(of_pairs(&[1, 2, 0, 9]), Some((51, 3)));
    assert_eq!(found(&Tables { pairs: vec![0, 0], ..Tables::default() }), Some((51, 0)));
}

#[test]
fn both_boats_the_same() {
    assert_eq!(of_pairs(&[0, 0]), Some((52, 1)));
    assert_eq!(of_pairs(&[2, 2]), Some((52, 1)));
    assert_eq!(of_pairs(&[0, 1, 1, 1]), Some((52, 3)));
    assert_eq!(of_pairs(&[1, 2, 1, 1]), Some((52, 3)));
    assert_eq!(of_pairs(&[1, 2, 0, 0]), Some((52, 3)));
}

#[test]
fn the_higher_boat_first() {
    assert_eq!(of_pairs(&[1, 0]), Some((53, 0)));
    assert_eq!(of_pairs(&[0, 1, 2, 1]), Some((53, 2)));
    assert_eq!(of_pairs(&[1, 2, 1, 0]), Some((53, 2)));
    assert_eq!(of_pairs(&[0, 1, 0, 2, 2, 0]), Some((53, 4)));
}

#[test]
fn a_pair_equal_to_or_below_the_one_before() {
    assert_eq!(of_pairs(&[0, 1, 0, 1]), Some((54, 2)));
    assert_eq!(of_pairs(&[0, 2, 0, 1]), Some((54, 2)));
    assert_eq!(of_pairs(&[1, 2, 0, 1]), Some((54, 2)));
    assert_eq!(of_pairs(&[1, 2, 0, 2]), Some((54, 2)));
    assert_eq!(found(&Tables { sizes: vec![1; 4], pairs: vec![1, 2, 0, 3], rows: vec![] }), Some((54, 2)));
    assert_eq!(found(&Tables { sizes: vec![1; 4], pairs: vec![0, 3, 1, 2], rows: vec![1, 1] }), None);
    assert_eq!(of_pairs(&[0, 1, 1, 2, 0, 2]), Some((54, 4)));
    assert_eq!(of_pairs(&[0, 1, 0, 2, 0, 1]), Some((54, 4)));
}

#[test]
fn the_lowest_faulty_pair_decides() {
    let bad = [(51, [0, 9], 1), (52, [1, 1], 1), (53, [2, 1], 0), (54, [0, 1], 0)];
    for (number, pair, byte) in bad {
        for (_, later, _) in bad {
            assert_eq!(of_pairs(&[[0, 2], pair, later].concat()), Some((number, 2 + byte)));
            if number != 54 {
                assert_eq!(of_pairs(&[pair, later].concat()), Some((number, byte)));
            }
        }
    }
    assert_eq!(of_pairs(&[1, 0, 9, 9]), Some((53, 0)));
    assert_eq!(of_pairs(&[0, 1, 1, 2, 0, 2, 9, 9]), Some((54, 4)));
}

#[test]
fn pairs_come_after_3_and_4_and_before_6_and_7() {
    let bad = [([0, 1, 0, 9], 51, 3), ([0, 1, 1, 1], 52, 3), ([0, 1, 2, 0], 53, 2), ([0, 1, 0, 1], 54, 2)];
    for (pairs, number, place) in bad {
        let rows = vec![u64::MAX; 4];
        let no_rows = Tables { sizes: vec![2; 3], pairs: pairs.to_vec(), rows: vec![] };
        let wide = Tables { rows: rows.clone(), ..no_rows.clone() };
        let both = Tables { rows: rows[..3].to_vec(), ..no_rows.clone() };
        for tables in [no_rows, wide, both] {
            assert_eq!(found(&tables), Some((number, place)));
            assert_eq!(found(&Tables { sizes: vec![2, 2, 0], ..tables.clone() }), Some((3, 2)));
            let odd = [&pairs[..], &[0]].concat();
            assert_eq!(found(&Tables { pairs: odd, ..tables }), Some((4, 0)));
        }
    }
}

#[test]
fn rows() {
    let mut short = good();
    short.rows.pop();
    assert_eq!(found(&short), Some((6, 0)));
    let mut long = good();
    long.rows.push(0);
    assert_eq!(found(&long), Some((6, 0)));
    let mut high = good();
    high.rows[1] = 8;
    assert_eq!(found(&high), Some((7, 1)));
    high.rows[0] = 1 << 63;
    assert_eq!(found(&high), Some((7, 0)));
}

#[test]
fn a_run_gives_1_then_the_examination_then_8_then_9() {
    let bad = Tables { sizes: vec![0], ..Tables::default() };
    let number = |method, tables: &Tables, plan_len, work_len| {
        let reply = run(method, tables, plan_len, work_len, u64::MAX, u64::MAX);
        match reply.answer {
            Answer::Refused(Refusal { number, place: 0 }) => (number, reply.checks, reply.trials),
            other => panic!("{other:?}"),
        }
    };
    for method in [0, 6, 257, u64::MAX] {
        assert_eq!(number(method, &bad, 0, 0), (1, 0, 0));
    }
    assert_eq!(number(1, &bad, 0, 0), (3, 0, 0));
    let bad_pair = Tables { pairs: vec![1, 0], ..good() };
    assert_eq!(number(0, &bad_pair, 0, 0), (1, 0, 0));
    assert_eq!(number(1, &bad_pair, 0, 0), (53, 0, 0));
    assert_eq!(number(1, &good(), 2, 0), (8, 0, 0));
    assert_eq!(number(1, &good(), 3, 8191), (9, 0, 0));
    assert_eq!(number(5, &Tables::default(), 0, 8191), (9, 0, 0));
}
