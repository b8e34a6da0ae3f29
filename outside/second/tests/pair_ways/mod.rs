//! What is wrong with listed pairs, told from the bytes alone and in no order of tests.

/// Which of 51 to 54 hold at a pair; the one before is taken as it stands.
fn ways(boats: usize, pairs: &[u8], pair: usize) -> Vec<u64> {
    let bytes = |pair: usize| [pairs[2 * pair], pairs[2 * pair + 1]];
    let [one, other] = bytes(pair);
    let as_number = |pair: usize| u16::from_be_bytes(bytes(pair));
    let holds = [
        (54, pair > 0 && as_number(pair) <= as_number(pair - 1)),
        (53, one > other),
        (52, one == other),
        (51, usize::from(one.max(other)) + 1 > boats),
    ];
    let mut ways: Vec<u64> = holds.iter().filter(|(_, holds)| *holds).map(|(number, _)| *number).collect();
    ways.sort();
    ways
}

/// Each pair that isn't as it should be, with all that is wrong about it.
pub fn faulty(boats: usize, pairs: &[u8]) -> Vec<(usize, Vec<u64>)> {
    let all = (0..pairs.len() / 2).map(|pair| (pair, ways(boats, pairs, pair)));
    all.filter(|(_, ways)| !ways.is_empty()).collect()
}
