//! The reader: numbers 21 to 25, of which the first fault in the bytes is given.

use super::{Mark, ED, PR, SZ};
use crate::answer::{refuse, Refusal};
use crate::tables::Tables;

/// The tables as they stand in the file, which the examination may still refuse.
pub fn read(file: &[u8]) -> Result<Tables, Refusal> {
    let mut bytes = Bytes { file, at: 0 };
    let mut tables = Tables::default();
    bytes.mark(&[SZ])?;
    sizes(&mut bytes, &mut tables)?;
    while bytes.mark(&[PR, ED])? == PR {
        pair(&mut bytes, &mut tables)?;
    }
    end(&mut bytes, tables.listed_pairs().count())?;
    Ok(tables)
}

/// After SZ: one byte n, n sizes.
fn sizes(bytes: &mut Bytes, tables: &mut Tables) -> Result<(), Refusal> {
    let n = bytes.one()?;
    tables.sizes = bytes.next(n.into())?.to_vec();
    Ok(())
}

/// After PR: two boats, then one word for each slot of the lower boat.
fn pair(bytes: &mut Bytes, tables: &mut Tables) -> Result<(), Refusal> {
    let place = bytes.at;
    let lower = bytes.one()?;
    let Some(&size) = tables.sizes.get(lower as usize) else {
        return refuse(23, place);
    };
    let higher = bytes.one()?;
    tables.pairs.extend([lower, higher]);
    for _slot in 0..size {
        tables.rows.push(low_first(bytes.next(8)?));
    }
    Ok(())
}

/// After ED: two bytes, the number of PR records; then nothing.
fn end(bytes: &mut Bytes, records: usize) -> Result<(), Refusal> {
    let place = bytes.at;
    if low_first(bytes.next(2)?) != records as u64 {
        return refuse(24, place);
    }
    if bytes.at < bytes.file.len() {
        return refuse(25, bytes.at);
    }
    Ok(())
}

/// The number that these bytes are, low byte first.
fn low_first(bytes: &[u8]) -> u64 {
    bytes.iter().rev().fold(0, |number, &byte| number << 8 | u64::from(byte))
}

/// A file, and how far it has been read.
struct Bytes<'a> {
    file: &'a [u8],
    at: usize,
}

impl<'a> Bytes<'a> {
    /// So many bytes more, or 22 if the file ends before them.
    fn next(&mut self, count: usize) -> Result<&'a [u8], Refusal> {
        if self.file.len() - self.at < count {
            return refuse(22, self.file.len());
        }
        let taken = &self.file[self.at..self.at + count];
        self.at += count;
        Ok(taken)
    }

    fn one(&mut self) -> Result<u8, Refusal> {
        Ok(self.next(1)?[0])
    }

    /// One of the marks that may stand here.
    fn mark(&mut self, due: &[Mark]) -> Result<Mark, Refusal> {
        let place = self.at;
        let two = self.next(2)?;
        match due.iter().find(|&mark| mark == two) {
            Some(&mark) => Ok(mark),
            None => refuse(21, place),
        }
    }
}
