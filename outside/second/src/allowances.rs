//! The allowances that a problem is given: ample, exact, one less, none, and random smaller ones.

use crate::problem::Problem;
use crate::random::Random;

/// (checks, trials) in rising order; a problem not decided within the cap never gets more than it.
pub fn allowances(random: &mut Random, problem: &Problem, cap: u64) -> Vec<(u64, u64)> {
    let probe = Problem { checks_allowed: cap, trials_allowed: cap, ..problem.clone() }.reply();
    let ample = if probe.undecided() { cap } else { u64::MAX };
    let (checks, trials) = (probe.checks, probe.trials);
    let mut list = vec![(ample, ample), (checks, trials), (0, 0), (0, ample), (ample, 0)];
    if checks > 0 {
        list.extend([(checks - 1, ample), (checks - 1, trials)]);
    }
    if trials > 0 {
        list.extend([(ample, trials - 1), (checks, trials - 1)]);
    }
    if checks > 0 && trials > 0 {
        list.push((checks - 1, trials - 1));
    }
    list.push((random.between(0, checks), ample));
    list.push((ample, random.between(0, trials)));
    list.push((random.between(0, checks), random.between(0, trials)));
    list.sort_unstable();
    list.dedup();
    list
}
