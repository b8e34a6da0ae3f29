//! The document's cases, the further vectors, and a short self-test.

use second::cases::all_lines;
use second::selftest::selftest;

#[test]
fn every_case_agrees() {
    for line in all_lines() {
        assert!(line.agrees(), "{}", line.text());
    }
}

#[test]
fn short_selftest() {
    let tally = selftest(1, 500);
    assert_eq!(tally.differed, 0, "{:?}", tally.examples);
}
