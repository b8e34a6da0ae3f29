//! The document's cases and the further ones: by every method, with allowances that run out or just
//! fit, with memory that is short or just enough, and plans for them.

use super::{by, by_all, plan, Named, AMPLE, ROOMY};

pub fn of_case(name: &str) -> Vec<Named> {
    let mut named = by_all(name, AMPLE, ROOMY);
    match name {
        "A" => named.extend(a()),
        "C" => named.extend(c()),
        "D" => named.extend(d()),
        "E" => named.extend(by_all("E with 2 checks 6 trials", (2, 6), ROOMY)),
        _ => {}
    }
    named
}

fn a() -> Vec<Named> {
    let mut named = by_all("A with 0 of both", (0, 0), ROOMY);
    named.extend(by_all("A with 8191 words", AMPLE, (0, 8191)));
    named.push(plan("no boat, empty plan", &[]));
    named
}

fn c() -> Vec<Named> {
    let mut named: Vec<Named> = [0, 6, u64::MAX].map(|method| by(method, "C", ROOMY)).into();
    let lent = [
        ("C with 1 plan byte", (1, 8200)),
        ("C with 8191 words", (72, 8191)),
        ("C with 1 plan byte and 8191 words", (1, 8191)),
        ("C with 2 plan bytes and 8192 words", (2, 8192)),
    ];
    named.extend(lent.into_iter().flat_map(|(name, lent)| by_all(name, AMPLE, lent)));
    named.push(plan("pair 0-1 alone, plan 0, 1", &[0, 1]));
    named
}

fn d() -> Vec<Named> {
    let (ample, _) = AMPLE;
    let allowed = [
        ("D with 9 checks", (9, ample)),
        ("D with 9 trials", (ample, 9)),
        ("D with 9 of both", (9, 9)),
        ("D with 10 of both", (10, 10)),
        ("D with 10 checks 4 trials", (10, 4)),
        ("D with 3 trials", (ample, 3)),
        ("D with 0 checks", (0, ample)),
        ("D with 0 of both", (0, 0)),
    ];
    let mut named: Vec<Named> =
        allowed.into_iter().flat_map(|(name, allowed)| by_all(name, allowed, ROOMY)).collect();
    named.extend([
        plan("D, plan 1, 1, 1", &[1, 1, 1]),
        plan("D, plan 0, 1, 0", &[0, 1, 0]),
        plan("D, plan 0, 1, 1", &[0, 1, 1]),
        plan("D, plan 0, 1", &[0, 1]),
        plan("D, plan 9, 1, 0, 0", &[9, 1, 0, 0]),
        plan("D, plan 0, 2, 255", &[0, 2, 255]),
    ]);
    named
}
