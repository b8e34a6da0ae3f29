//! The writer: the examination, then the one file of the tables; number 26 where it doesn't fit.

use super::{ED, PR, SZ};
use crate::answer::{refuse, Refusal};
use crate::examine::examine;
use crate::tables::Tables;

pub fn write(tables: &Tables) -> Result<Vec<u8>, Refusal> {
    examine(tables)?;
    let mut file = sz(&tables.sizes);
    let mut start = 0;
    for (lower, higher) in tables.listed_pairs() {
        let end = start + tables.sizes[lower] as usize;
        file.extend(pr(lower as u8, higher as u8, &tables.rows[start..end]));
        start = end;
    }
    file.extend(ed(tables.listed_pairs().count() as u16));
    Ok(file)
}

/// The length of the file, which stands at the start of the lent bytes; a refusal writes nothing.
pub fn write_into(tables: &Tables, lent: &mut [u8]) -> Result<usize, Refusal> {
    let file = write(tables)?;
    if lent.len() < file.len() {
        return refuse(26, 0);
    }
    lent[..file.len()].copy_from_slice(&file);
    Ok(file.len())
}

/// The mark SZ and its record.
pub fn sz(sizes: &[u8]) -> Vec<u8> {
    [&SZ[..], &[sizes.len() as u8], sizes].concat()
}

/// The mark PR and its record.
pub fn pr(lower: u8, higher: u8, rows: &[u64]) -> Vec<u8> {
    let mut record = [PR, [lower, higher]].concat();
    rows.iter().for_each(|word| record.extend(word.to_le_bytes()));
    record
}

/// The mark ED and its record.
pub fn ed(records: u16) -> Vec<u8> {
    [ED, records.to_le_bytes()].concat()
}
