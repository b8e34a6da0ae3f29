//! The plan questions, the rows of a pair, brute force, and the lines of text.

use second::answer::Refusal;
use second::brute::first_lawful_plan;
use second::generate::generate;
use second::plans::{first_broken_pair, lawful};
use second::problem::{reply_line, Problem};
use second::rows::rows_of_pair;
use second::tables::Tables;
use second::vectors::{further_cases, harbour_cases, harbour_d, harbour_e};

#[test]
fn plan_questions() {
    let d = harbour_d();
    assert_eq!(first_broken_pair(&d, &[0, 0, 0]), Ok(Some(0)));
    assert_eq!(first_broken_pair(&d, &[0, 1, 0]), Ok(Some(1)));
    assert_eq!(first_broken_pair(&d, &[0, 1, 1]), Ok(Some(2)));
    assert_eq!(lawful(&d, &[0, 1, 1]), Ok(false));
    assert_eq!(lawful(&harbour_e(), &[1, 1, 0]), Ok(true));
    assert_eq!(first_broken_pair(&harbour_e(), &[1, 1, 0]), Ok(None));
    assert_eq!(lawful(&Tables::default(), &[]), Ok(true));
}

#[test]
fn refused_plans() {
    let d = harbour_d();
    assert_eq!(lawful(&d, &[9, 9]), Err(Refusal { number: 10, place: 0 }));
    assert_eq!(lawful(&d, &[0, 2, 2]), Err(Refusal { number: 11, place: 1 }));
    let bad = Tables { sizes: vec![0], ..Tables::default() };
    assert_eq!(first_broken_pair(&bad, &[]), Err(Refusal { number: 3, place: 0 }));
    let bad_pair = Tables { pairs: vec![0, 1, 1, 1], ..d };
    assert_eq!(lawful(&bad_pair, &[]), Err(Refusal { number: 52, place: 3 }));
    assert_eq!(first_broken_pair(&bad_pair, &[9, 9]), Err(Refusal { number: 52, place: 3 }));
}

#[test]
fn rows_of_pairs() {
    let v6 = &further_cases()[5].tables;
    assert_eq!(rows_of_pair(v6, 0, 2), (0, 3));
    assert_eq!(rows_of_pair(v6, 1, 2), (3, 5));
    assert_eq!(rows_of_pair(v6, 1, 4), (5, 7));
    assert_eq!(rows_of_pair(v6, 3, 4), (7, 8));
    for (lower, higher) in [(0, 1), (2, 0), (2, 2), (0, 5), (5, 6), (usize::MAX, 0)] {
        assert_eq!(rows_of_pair(v6, lower, higher), (0, 0));
    }
    let refused = Tables { rows: vec![], ..v6.clone() };
    assert_eq!(rows_of_pair(&refused, 1, 2), (0, 0));
}

#[test]
fn brute_force_on_the_cases() {
    for case in harbour_cases().into_iter().chain(further_cases()) {
        assert_eq!(first_lawful_plan(&case.tables), Ok(case.plan), "{}", case.name);
    }
}

#[test]
fn lines_are_read_as_written() {
    for kind in ["tiny", "bad"] {
        let made = generate(kind, 3, 2000, |problem| match Problem::read(&problem.line()) {
            Ok(read) if read == *problem => Ok(()),
            other => Err(format!("{other:?}")),
        });
        assert_eq!(made, Ok(true));
    }
}

#[test]
fn the_line_of_case_c() {
    let line = "1 18446744073709551615 18446744073709551615 2 8192 | 0202 | 0001 | 2,1";
    let problem = Problem::read(line).expect("a problem");
    assert_eq!(problem.line(), line);
    assert_eq!(reply_line(&problem.reply()), "0 0 2 3 0001");
    assert!(Problem::read("1 2 3").is_err());
}
