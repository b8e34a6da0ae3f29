//! The parts of the lines that speak of files and of the memory lent for them.

use super::lines::told;
use crate::file::{desk, read_into, write_into, Lengths, Lent, Taken};
use crate::problem::{hex, hex_words};
use crate::tables::Tables;

pub fn lengths(lent: &Lengths) -> String {
    format!("{} {} {}", lent.sizes, lent.pairs, lent.rows)
}

pub fn write_reply(tables: &Tables, room: usize) -> String {
    let mut memory = filled_bytes(room);
    let reply = write_into(tables, &mut memory);
    let length = reply.unwrap_or(0);
    format!("w {} {length} {}\n", told(reply.map(|_| (0, 0))), hex(&memory))
}

pub fn file_reply(file: &[u8], lent: &Lengths) -> String {
    let mut lent = filled(lent);
    let Taken { refused, written } = read_into(file, &mut lent);
    let answer = told(refused.map_or(Ok((0, 0)), Err));
    format!("f {answer} {} {}\n", lengths(&written), standing(&lent))
}

pub fn desk_reply(file: &[u8], plan: &[u8], lent: &Lengths) -> String {
    let mut lent = filled(lent);
    let answer = desk(file, plan, &mut lent);
    format!("d {answer} {}\n", standing(&lent))
}

/// Lent memory as it is before the call.
fn filled(lent: &Lengths) -> Lent {
    let rows = (0..lent.rows as u64).map(|word| u64::MAX - word).collect();
    Lent { sizes: filled_bytes(lent.sizes), pairs: filled_bytes(lent.pairs), rows }
}

fn filled_bytes(length: usize) -> Vec<u8> {
    (0..length).map(|byte| 255 - (byte % 256) as u8).collect()
}

fn standing(lent: &Lent) -> String {
    format!("{} {} {}", hex(&lent.sizes), hex(&lent.pairs), hex_words(&lent.rows))
}
