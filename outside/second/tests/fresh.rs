//! Fresh problems: every kind is there, a seed repeats them, and each line has its reply.

use second::shapes::KINDS;
use second::stored::{fresh, problem_lines, reply_lines};

#[test]
fn every_kind_from_any_seed() {
    for kind in KINDS.into_iter().chain(["bad"]).filter(|&kind| kind != "full") {
        let lines = |seed| fresh(kind, seed, 1).map(|groups| (problem_lines(&groups), reply_lines(&groups)));
        let (Some(one), Some(other)) = (lines(1), lines(2)) else {
            panic!("no kind {kind}");
        };
        assert!(one != other, "{kind}: two seeds, one text");
        assert!(lines(1) == Some(one.clone()), "{kind}: one seed, two texts");
        assert_eq!(one.0.lines().count(), one.1.lines().count(), "{kind}");
    }
}

#[test]
fn files_of_every_kind() {
    for kind in KINDS.into_iter().chain(["bad"]).filter(|&kind| kind != "full") {
        let problems = fresh(kind, 3, 2).map(|groups| problem_lines(&groups)).expect("a kind");
        assert!(problems.contains("\nw "), "{kind}");
        // All 2,016 pairs make a file that is too long to be asked about often.
        if kind != "crowded" {
            assert!(problems.contains("\nf ") && problems.contains("\nd "), "{kind}");
        }
    }
}

#[test]
fn no_other_kind() {
    assert!(fresh("calm", 1, 1).is_none());
}
