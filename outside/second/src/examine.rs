//! Examination of the tables: numbers 2, 3, 4, 51 to 54, 6 and 7, tested in this order. The first that
//! applies is given.

use crate::answer::{refuse, Refusal};
use crate::tables::{Tables, MOST_BOATS, MOST_PAIRS, MOST_SLOTS};

pub fn examine(tables: &Tables) -> Result<(), Refusal> {
    boats(tables)?;
    sizes(tables)?;
    pair_bytes(tables)?;
    pairs(tables)?;
    row_words(tables)?;
    row_bits(tables)
}

fn boats(tables: &Tables) -> Result<(), Refusal> {
    if tables.boats() > MOST_BOATS {
        return refuse(2, 0);
    }
    Ok(())
}

fn sizes(tables: &Tables) -> Result<(), Refusal> {
    for (boat, &size) in tables.sizes.iter().enumerate() {
        if size == 0 || size > MOST_SLOTS {
            return refuse(3, boat);
        }
    }
    Ok(())
}

fn pair_bytes(tables: &Tables) -> Result<(), Refusal> {
    let bytes = tables.pairs.len();
    if bytes % 2 == 1 || bytes > 2 * MOST_PAIRS {
        return refuse(4, 0);
    }
    Ok(())
}

/// The lowest faulty pair decides, whichever of 51 to 54 it is.
fn pairs(tables: &Tables) -> Result<(), Refusal> {
    let mut before = None;
    for (index, pair) in tables.listed_pairs().enumerate() {
        one_pair(tables.boats(), 2 * index, pair, before)?;
        before = Some(pair);
    }
    Ok(())
}

type Pair = (usize, usize);

/// Numbers 51 to 54 of the pair whose first byte stands at `first`; the place is the byte at fault.
fn one_pair(boats: usize, first: usize, pair: Pair, before: Option<Pair>) -> Result<(), Refusal> {
    let (lower, higher) = pair;
    if lower >= boats {
        return refuse(51, first);
    }
    if higher >= boats {
        return refuse(51, first + 1);
    }
    if lower == higher {
        return refuse(52, first + 1);
    }
    if lower > higher {
        return refuse(53, first);
    }
    if before.is_some_and(|pair_before| pair <= pair_before) {
        return refuse(54, first);
    }
    Ok(())
}

fn row_words(tables: &Tables) -> Result<(), Refusal> {
    let due: usize = tables.listed_pairs().map(|(lower, _)| tables.sizes[lower] as usize).sum();
    if tables.rows.len() != due {
        return refuse(6, 0);
    }
    Ok(())
}

fn row_bits(tables: &Tables) -> Result<(), Refusal> {
    let mut word = 0;
    for (lower, higher) in tables.listed_pairs() {
        for _slot in 0..tables.sizes[lower] {
            // Bit by bit, since a shift by 64 has no meaning for a boat of size 64.
            for bit in tables.sizes[higher]..64 {
                if tables.rows[word] >> bit & 1 == 1 {
                    return refuse(7, word);
                }
            }
            word += 1;
        }
    }
    Ok(())
}
