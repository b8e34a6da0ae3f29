//! Reading into lent memory: 21 to 25, then 26, then the tables are written there and examined.

use super::read::read;
use crate::answer::{refuse, Refusal};
use crate::examine::examine;
use crate::tables::Tables;

/// What the caller lends for the tables; no part ever changes its length.
#[derive(Clone, Debug, PartialEq, Eq)]
pub struct Lent {
    pub sizes: Vec<u8>,
    pub pairs: Vec<u8>,
    pub rows: Vec<u64>,
}

/// How much stands in the three parts: bytes, bytes, words.
#[derive(Clone, Copy, Debug, Default, PartialEq, Eq)]
pub struct Lengths {
    pub sizes: usize,
    pub pairs: usize,
    pub rows: usize,
}

/// What the reader gives back: the refusal, if any, and how much it wrote.
#[derive(Clone, Debug, PartialEq, Eq)]
pub struct Taken {
    pub refused: Option<Refusal>,
    pub written: Lengths,
}

/// Tables that the examination refuses stand in the lent memory all the same.
pub fn read_into(file: &[u8], lent: &mut Lent) -> Taken {
    match take(file, lent) {
        Ok(tables) => Taken { refused: examine(&tables).err(), written: Lengths::of(&tables) },
        Err(refusal) => Taken { refused: Some(refusal), written: Lengths::default() },
    }
}

/// The tables as read, now in the lent memory too; 21 to 26 write nothing.
pub(super) fn take(file: &[u8], lent: &mut Lent) -> Result<Tables, Refusal> {
    let tables = read(file)?;
    if !lent.has_room(Lengths::of(&tables)) {
        return refuse(26, 0);
    }
    lent.hold(&tables);
    Ok(tables)
}

impl Lengths {
    pub fn of(tables: &Tables) -> Lengths {
        Lengths { sizes: tables.sizes.len(), pairs: tables.pairs.len(), rows: tables.rows.len() }
    }
}

impl Lent {
    /// Each part on its own has to be long enough.
    fn has_room(&self, due: Lengths) -> bool {
        self.sizes.len() >= due.sizes && self.pairs.len() >= due.pairs && self.rows.len() >= due.rows
    }

    /// What comes after the tables stays as it was.
    fn hold(&mut self, tables: &Tables) {
        let Lengths { sizes, pairs, rows } = Lengths::of(tables);
        self.sizes[..sizes].copy_from_slice(&tables.sizes);
        self.pairs[..pairs].copy_from_slice(&tables.pairs);
        self.rows[..rows].copy_from_slice(&tables.rows);
    }
}
