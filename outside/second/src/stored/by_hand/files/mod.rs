//! Files: the document's example, each fault of the bytes, what is read and then examined, lent memory
//! that is short or just enough, the writer's refusals, and the desk's question.

mod desk;
mod examined;
mod faults;
mod lent;
mod written;

use super::{group, Group, Named, Question};
use crate::file::Lengths;

/// The three records of the document's example.
const SIZES: &[u8] = b"SZ\x02\x01\x01";
const PAIR: &[u8] = b"PR\x00\x01\x01\0\0\0\0\0\0\0";
const END: &[u8] = b"ED\x01\0";

/// What the example needs.
const ENOUGH: (usize, usize, usize) = (2, 2, 1);

const NOTHING: (usize, usize, usize) = (0, 0, 0);

pub fn groups() -> Vec<Group> {
    let mut groups = vec![
        alone("files with faults", faults::named()),
        alone("files to be read and examined", examined::named()),
        alone("files and lent memory", lent::named()),
        alone("files and plans", desk::named()),
    ];
    groups.extend(written::groups());
    groups
}

/// Questions that ask nothing of the tables before them.
fn alone(name: &str, named: Vec<Named>) -> Group {
    group(name, &[], &[], &[], named)
}

fn example() -> Vec<u8> {
    [SIZES, PAIR, END].concat()
}

fn read(name: &str, file: &[u8], (sizes, pairs, rows): (usize, usize, usize)) -> Named {
    (format!("read, {name}"), Question::File(file.to_vec(), Lengths { sizes, pairs, rows }))
}

fn ask(name: &str, file: &[u8], plan: &[u8], (sizes, pairs, rows): (usize, usize, usize)) -> Named {
    let lent = Lengths { sizes, pairs, rows };
    (format!("desk, {name}"), Question::Desk(file.to_vec(), plan.to_vec(), lent))
}

fn write(name: &str, room: usize) -> Named {
    (format!("write, {name}"), Question::Write(room))
}
