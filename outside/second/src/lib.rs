//! An independent second program for the harbour's problem, written from docs/01-scope.md and requests
//! No. 1 and No. 2 of docs/02-change-requests.md alone. It is meant to be obviously right, not fast:
//! visits are nested calls, nothing is ever undone, and a file is read and written record by record.
#![forbid(unsafe_code)]

pub mod allowances;
pub mod answer;
pub mod brute;
pub mod cases;
pub mod counter;
pub mod examine;
pub mod file;
pub mod generate;
pub mod harbour;
pub mod methods;
pub mod plans;
pub mod problem;
pub mod random;
pub mod rows;
pub mod run;
pub mod selftest;
pub mod shapes;
pub mod spoil;
pub mod stored;
pub mod tables;
pub mod vectors;
