//! Every step away from a good file: cut short, a byte changed, records left out, doubled or exchanged; and
//! every mark and every order of records.

use std::slice::from_ref;

use super::records::{counted, longer, shorter, Record};
use super::spoil::TELLING;
use crate::file::{ed, pr, sz, Lengths};

/// Every set of parts short by one, each part longer by three, all of them, and nothing at all.
pub fn every_lent(exact: Lengths) -> Vec<Lengths> {
    let mut all: Vec<Lengths> = (0..8).map(|set| shorter(exact, set)).collect();
    all.push(Lengths { sizes: exact.sizes + 3, ..exact });
    all.push(Lengths { pairs: exact.pairs + 3, ..exact });
    all.push(Lengths { rows: exact.rows + 3, ..exact });
    all.push(longer(exact, 3));
    all.push(Lengths::default());
    all
}

/// The whole file is the last cut.
pub fn every_cut(file: &[u8]) -> Vec<Vec<u8>> {
    (0..=file.len()).map(|length| file[..length].to_vec()).collect()
}

/// Each byte made each telling one, one more and one less.
pub fn every_change(file: &[u8]) -> Vec<Vec<u8>> {
    (0..file.len()).flat_map(|at| changes_at(file, at)).collect()
}

/// The same, and nothing after the changed byte.
pub fn every_changed_end(file: &[u8]) -> Vec<Vec<u8>> {
    (0..file.len()).flat_map(|at| changes_at(&file[..=at], at)).collect()
}

fn changes_at(file: &[u8], at: usize) -> Vec<Vec<u8>> {
    let old = file[at];
    let mut values = [&TELLING[..], &[old.wrapping_add(1), old.wrapping_sub(1)]].concat();
    values.sort();
    values.dedup();
    let with = |value: u8| [&file[..at], &[value], &file[at + 1..]].concat();
    values.into_iter().filter(|&value| value != old).map(with).collect()
}

/// Each record left out, doubled, and exchanged with the next; then the same with ED's count put right.
pub fn other_records(records: &[Record]) -> Vec<Vec<u8>> {
    let mut all: Vec<Vec<Record>> = Vec::new();
    for one in 0..records.len() {
        let changed = |change: &dyn Fn(&mut Vec<Record>)| {
            let mut list = records.to_vec();
            change(&mut list);
            list
        };
        all.push(changed(&|list| drop(list.remove(one))));
        all.push(changed(&|list| list.insert(one, records[one].clone())));
        if one + 1 < records.len() {
            all.push(changed(&|list| list.swap(one, one + 1)));
        }
    }
    all.iter().flat_map(|list| [list.concat(), counted(list).concat()]).collect()
}

/// Every two letters of known and later marks, and some others, in place of each mark of the example.
pub fn every_mark() -> Vec<Vec<u8>> {
    let letters = b"SZPREDWLOspzre\0\xFF";
    let [start, pair, end] = [sz(&[1, 1]), pr(0, 1, &[1]), ed(1)];
    let mut all = Vec::new();
    for mark in letters.iter().flat_map(|&one| letters.iter().map(move |&other| [one, other])) {
        let marked = |record: &[u8]| [&mark[..], &record[2..]].concat();
        all.push([marked(&start), pair.clone(), end.clone()].concat());
        all.push([start.clone(), marked(&pair), end.clone()].concat());
        all.push([start.clone(), pair.clone(), marked(&end)].concat());
    }
    all
}

/// Every list of up to five records, each ED with the number of PRs before it.
pub fn every_order() -> Vec<Vec<u8>> {
    let kinds = [sz(&[1, 1]), pr(0, 1, &[1]), ed(0)];
    let mut lists: Vec<Vec<Record>> = vec![Vec::new()];
    let mut from = 0;
    for _ in 0..5 {
        let to = lists.len();
        for list in from..to {
            let longer = kinds.iter().map(|kind| [&lists[list][..], from_ref(kind)].concat());
            lists.extend(longer.collect::<Vec<_>>());
        }
        from = to;
    }
    lists.iter().map(|list| counted(list).concat()).collect()
}
