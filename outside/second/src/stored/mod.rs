//! The stored set: the problems that the Rattle program `vectors` runs, and the replies it must print.
//!
//! second vectors problems    its input, one line for each of:
//!
//!   t SIZES PAIRS ROWS                        tables, for all lines up to the next such line
//!   r METHOD CHECKS TRIALS PLAN_LEN WORK_LEN  run a method on them
//!   p PLAN                                    is this plan lawful, and which pair does it break first
//!   s LOWER HIGHER                            show the rows of a pair
//!   w ROOM                                    write them to a file, in so many lent bytes
//!   f FILE SIZES PAIRS ROWS                   read a file into lent memory: bytes, bytes, words
//!   d FILE PLAN SIZES PAIRS ROWS              the desk's question, with lent memory as for f
//!
//! FILE is bytes in hex, as a plan is. What f and d ask doesn't depend on the tables before them. Before
//! the call, byte k of a lent part holds 255 - (k mod 256), and word k holds 2^64 - 1 - k.
//! After ' # ' a line may end in its name; what was worked out by hand has one. No name is answered.
//!
//! second vectors replies     its output, one line for each of those:
//!
//!   t ANSWER PLACE                            the examination: 0 fine, 100 + number refused
//!   r ANSWER PLACE CHECKS TRIALS PLAN BYTES_CHANGED WORDS_CHANGED NOT_ZERO
//!   p ANSWER PLACE ANSWER PLACE               lawful: 0 yes, 1 no; broken: 0 none, 1 at that pair
//!   s FROM TO WORDS                           where the rows stand, and what is shown
//!   w ANSWER PLACE LENGTH MEMORY              0 written, 100 + number refused; the file's length
//!   f ANSWER PLACE BOATS PAIR_BYTES ROW_WORDS SIZES PAIRS ROWS
//!   d ANSWER SIZES PAIRS ROWS                 0 lawful, 1 not, 100 + number refused
//!
//! An f line's ANSWER is 0 or 100 + number, and three lengths tell how much was written. After w, f and
//! d comes all of the lent memory as it then stands: MEMORY and SIZES and PAIRS as bytes, ROWS as words.
//!
//! Numbers are decimal; bytes, words, '-', and a run's first five fields are as main.rs describes.
//! The program under test writes another PLACE than 0 for fine tables where the problem's own numbers,
//! which the examination hands out, are not those of the tables; and as PLAN the bytes that changed.
//! BYTES_CHANGED is the place after the last changed byte of the plan memory, WORDS_CHANGED that of
//! the working words, and NOT_ZERO counts the words before it that are not 0.
//! `second fresh` writes lines of the same two forms, about tables from any seed, and `second files`
//! about every way in which a few small files can be spoiled by little, and about the longest ones.

mod bad_pairs;
mod by_hand;
mod faults;
mod file_lines;
mod files;
mod fresh;
mod lines;
mod plans;
mod runs;
mod sets;

use crate::file::Lengths;
use crate::tables::Tables;

pub use files::every_file;
pub use fresh::fresh;
pub use lines::{problem_lines, reply_lines};
pub use sets::groups;

/// Tables, and all that is asked of them.
pub struct Group {
    /// Empty where the tables have no name.
    pub name: String,
    pub tables: Tables,
    pub named: Vec<Named>,
    pub questions: Vec<Question>,
}

/// A question that was worked out by hand, after its name.
pub type Named = (String, Question);

pub enum Question {
    Run(Terms),
    Plan(Vec<u8>),
    Rows(usize, usize),
    /// Write the tables, in so many bytes.
    Write(usize),
    /// Read a file.
    File(Vec<u8>, Lengths),
    /// The desk's question about a file and a plan.
    Desk(Vec<u8>, Vec<u8>, Lengths),
}

/// All that a run is given beside the tables.
#[derive(Clone, Copy, Debug, PartialEq, Eq)]
pub struct Terms {
    pub method: u64,
    pub checks_allowed: u64,
    pub trials_allowed: u64,
    pub plan_len: usize,
    pub work_len: usize,
}

impl Terms {
    fn new(method: u64, allowed: (u64, u64), lent: (usize, usize)) -> Terms {
        let ((checks_allowed, trials_allowed), (plan_len, work_len)) = (allowed, lent);
        Terms { method, checks_allowed, trials_allowed, plan_len, work_len }
    }
}
