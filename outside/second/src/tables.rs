//! The tables as lent by the caller, and the problem's limits.

pub const MOST_BOATS: usize = 64;
pub const MOST_SLOTS: u8 = 64;
pub const MOST_PAIRS: usize = 2016;
pub const WORKING_WORDS: usize = 8192;

#[derive(Clone, Debug, Default, PartialEq, Eq)]
pub struct Tables {
    /// One byte for each boat: how many slots it has.
    pub sizes: Vec<u8>,
    /// Two bytes for each listed pair: lower boat, higher boat.
    pub pairs: Vec<u8>,
    /// For each listed pair in turn, one word for each slot of the lower boat.
    pub rows: Vec<u64>,
}

impl Tables {
    pub fn boats(&self) -> usize {
        self.sizes.len()
    }

    /// The listed pairs in turn; an odd byte at the end is left out (number 4 speaks of it).
    pub fn listed_pairs(&self) -> impl Iterator<Item = (usize, usize)> + '_ {
        self.pairs.chunks_exact(2).map(|pair| (pair[0] as usize, pair[1] as usize))
    }
}
