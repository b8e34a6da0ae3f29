//! Broken input shows every way a pair can be bad, first and later in the list, and several at once.

mod pair_ways;

use std::collections::BTreeMap;

use pair_ways::faulty;
use second::random::Random;
use second::spoil::spoiled;
use second::tables::Tables;

/// What the lowest faulty pair shows: first or later, each fault alone or with others, and its bytes.
fn shown(tables: &Tables) -> Vec<String> {
    let bad_pairs = faulty(tables.boats(), &tables.pairs);
    let Some((pair, ways)) = bad_pairs.first() else { return Vec::new() };
    let at = if *pair == 0 { "first" } else { "later" };
    let [one, other] = [0, 1].map(|byte| tables.pairs[2 * pair + byte]);
    let no_boat = |byte: u8| usize::from(byte) >= tables.boats();
    let mut shown = vec![format!("{at} {ways:?}")];
    if ways.contains(&51) {
        shown.push(format!("{at} no boat {} {}", no_boat(one), no_boat(other)));
    }
    if ways == &[54] {
        let before = &tables.pairs[2 * pair - 2..2 * pair];
        shown.push(format!("lower, higher {:?} {:?}", one.cmp(&before[0]), other.cmp(&before[1])));
    }
    if let Some((_, next)) = bad_pairs.get(1) {
        shown.push(format!("{} then {}", ways[0], next[0]));
    }
    shown
}

#[test]
fn every_way_a_pair_can_be_bad() {
    let mut random = Random::new(1);
    let mut often: BTreeMap<String, u64> = BTreeMap::new();
    for _ in 0..20_000 {
        let tables = spoiled(&mut random).tables;
        let odd = tables.pairs.len() % 2 == 1;
        if tables.boats() <= 64 && !odd && tables.pairs.len() <= 4032 {
            shown(&tables).into_iter().for_each(|what| *often.entry(what).or_default() += 1);
        }
    }
    for what in due() {
        let count = often.get(&what).copied().unwrap_or(0);
        assert!(count >= 20, "{what}: {count}");
    }
}

fn due() -> Vec<String> {
    let anywhere = ["[51]", "[52]", "[53]", "[51, 52]", "[51, 53]"];
    let bytes = ["no boat true false", "no boat false true", "no boat true true"];
    let only_later = ["[54]", "[51, 54]", "[52, 54]", "[53, 54]"];
    let of_54 = ["Equal Equal", "Equal Less", "Less Less", "Less Equal", "Less Greater"];
    let mut due = Vec::new();
    for what in anywhere.into_iter().chain(bytes) {
        due.extend(["first", "later"].map(|at| format!("{at} {what}")));
    }
    due.extend(only_later.map(|what| format!("later {what}")));
    due.extend(of_54.map(|what| format!("lower, higher {what}")));
    for number in 51..=54 {
        due.extend((51..=54).map(|next| format!("{number} then {next}")));
    }
    due
}
