//! The file for the tables: records, each after a two-byte mark. One SZ with the sizes, for each listed
//! pair a PR with its rows, one ED with the number of PRs, nothing after.

mod desk;
mod lent;
mod read;
mod write;

pub use desk::desk;
pub use lent::{read_into, Lengths, Lent, Taken};
pub use read::read;
pub use write::{ed, pr, sz, write, write_into};

pub type Mark = [u8; 2];

pub const SZ: Mark = *b"SZ";
pub const PR: Mark = *b"PR";
pub const ED: Mark = *b"ED";
