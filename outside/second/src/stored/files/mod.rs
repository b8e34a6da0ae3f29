//! Files that are asked about: a few or many for given tables, and every little fault of a few files.

mod asked;
mod every;
mod longest;
mod records;
mod spoil;
mod steps;

pub use asked::{ask_few, ask_many};
pub use every::every_file;
