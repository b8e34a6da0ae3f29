//! Examined tables, laid out so that one look at one bit is one call.

use crate::tables::Tables;

pub struct Harbour {
    sizes: Vec<usize>,
    /// rows[lower][higher]: one word for each slot of the lower boat, or nothing if not listed.
    rows: Vec<Vec<Option<Vec<u64>>>>,
}

impl Harbour {
    /// Only for tables that examination has passed.
    pub fn of(tables: &Tables) -> Harbour {
        let boats = tables.boats();
        let sizes: Vec<usize> = tables.sizes.iter().map(|&size| size as usize).collect();
        let mut rows = vec![vec![None; boats]; boats];
        let mut words = tables.rows.iter().copied();
        for (lower, higher) in tables.listed_pairs() {
            rows[lower][higher] = Some(words.by_ref().take(sizes[lower]).collect());
        }
        Harbour { sizes, rows }
    }

    pub fn boats(&self) -> usize {
        self.sizes.len()
    }

    pub fn slots(&self, boat: usize) -> usize {
        self.sizes[boat]
    }

    pub fn listed(&self, lower: usize, higher: usize) -> bool {
        self.rows[lower][higher].is_some()
    }

    /// Whether the pair allows both slots; a pair not listed allows everything.
    pub fn allows(&self, lower: usize, lower_slot: usize, higher: usize, higher_slot: usize) -> bool {
        match &self.rows[lower][higher] {
            Some(rows) => rows[lower_slot] >> higher_slot & 1 == 1,
            None => true,
        }
    }
}
