//! Spoiled files: records left out, doubled, exchanged or put in, then bytes changed, cut off or put in.

use super::records::{counted, Record};
use crate::random::Random;

/// The letters of the marks, and bytes at the limits of sizes, counts and signs.
pub const TELLING: [u8; 12] = [0x00, 0x01, 0x02, 0x7F, 0x80, 0xFF, b'S', b'Z', b'P', b'R', b'E', b'D'];

const NO_RECORDS: [&[u8]; 5] = [b"XX", b"WL\x00", b"OP\x01\0\0\0\0\0\0\0", b"pr\x00\x01", b"\0\0"];

/// Faults in the records, in the bytes, or in both; ED's count is put right half the time.
pub fn spoiled(random: &mut Random, records: &[Record]) -> Vec<u8> {
    let mut records = records.to_vec();
    let in_records = random.between(0, 2);
    for _ in 0..in_records {
        spoil_records(random, &mut records);
    }
    if random.chance(500) {
        records = counted(&records);
    }
    let mut file = records.concat();
    for _ in 0..random.between(u64::from(in_records == 0), 2) {
        spoil_bytes(random, &mut file);
    }
    file
}

fn spoil_records(random: &mut Random, records: &mut Vec<Record>) {
    if records.is_empty() {
        return;
    }
    let (one, other) = (random.index(records.len()), random.index(records.len()));
    match random.between(0, 5) {
        0 => drop(records.remove(one)),
        1 => records.insert(one, records[one].clone()),
        2 => records.insert(one, records[other].clone()),
        3 => records.swap(one, other),
        4 => records.swap(one, one.saturating_sub(1)),
        _ => records.insert(one, random.one_of(&NO_RECORDS).to_vec()),
    }
}

fn spoil_bytes(random: &mut Random, file: &mut Vec<u8>) {
    let value = if random.chance(500) { random.one_of(&TELLING) } else { random.word() as u8 };
    if file.is_empty() || random.chance(100) {
        return file.push(value);
    }
    let at = random.index(file.len());
    match random.between(0, 8) {
        0 | 1 => file.truncate(at),
        2 => file.truncate(file.len() - 1),
        3 => drop(file.remove(at)),
        4 => file.insert(at, value),
        5 => file[at] = file[at].wrapping_add(1),
        6 => file[at] = file[at].wrapping_sub(1),
        _ => file[at] = value,
    }
}
