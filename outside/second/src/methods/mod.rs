//! The five methods and their numbers.

mod bm;
mod bt;
mod cbj;
mod fc;
mod fc_cbj;
mod forward;

use crate::counter::{Counter, Stop};
use crate::harbour::Harbour;

/// The first lawful plan, or none, or stopped by an allowance.
pub type Found = Result<Option<Vec<usize>>, Stop>;
pub type Method = fn(&Harbour, &mut Counter) -> Found;

pub const NAMES: [&str; 5] = ["BT", "CBJ", "BM", "FC", "FC-CBJ"];

pub fn method_of(number: u64) -> Option<Method> {
    match number {
        1 => Some(bt::search),
        2 => Some(cbj::search),
        3 => Some(bm::search),
        4 => Some(fc::search),
        5 => Some(fc_cbj::search),
        _ => None,
    }
}
