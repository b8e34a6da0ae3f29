//! The file for the tables: what is written is read back, one problem has one file, and each refusal has
//! its cause. The files are those of `second files` and fresh ones.

use second::answer::Refusal;
use second::examine::examine;
use second::file::{desk, ed, pr, read, read_into, sz, write, write_into, Lengths, Lent};
use second::plans::lawful;
use second::random::Random;
use second::shapes::random_tables;
use second::stored::{every_file, fresh, Question};
use second::tables::Tables;
use second::vectors::tables;

const EXAMPLE: [u8; 21] = [
    0x53, 0x5A, 0x02, 0x01, 0x01, 0x50, 0x52, 0x00, 0x01, 0x01, 0x00, 0x00, 0x00, 0x00, 0x00, 0x00, 0x00,
    0x45, 0x44, 0x01, 0x00,
];

/// All files that are asked about, but for the longest.
fn files() -> Vec<Vec<u8>> {
    let mut groups = every_file();
    for (kind, count) in [("tiny", 200), ("small", 200), ("wide", 10), ("bad", 40)] {
        groups.extend(fresh(kind, 5, count).expect("a kind"));
    }
    let questions = groups.into_iter().flat_map(|group| group.questions);
    let file = |question| match question {
        Question::File(file, _) | Question::Desk(file, _, _) if file.len() < 30_000 => Some(file),
        _ => None,
    };
    questions.filter_map(file).collect()
}

fn good_tables() -> Vec<Tables> {
    let mut random = Random::new(3);
    let kinds = [("tiny", 500), ("small", 500), ("phase", 20), ("sparse", 20), ("wide", 20), ("crowded", 2)];
    let mut all = vec![Tables::default()];
    for (kind, count) in kinds {
        all.extend((0..count).filter_map(|_| random_tables(&mut random, kind)));
    }
    all
}

/// Memory of these lengths, of which no byte and no word is what tables would hold by chance.
fn lent(lengths: Lengths) -> Lent {
    let Lengths { sizes, pairs, rows } = lengths;
    Lent { sizes: vec![0xA7; sizes], pairs: vec![0xA7; pairs], rows: vec![0xA7A7_A7A7_A7A7_A7A7; rows] }
}

/// Each length as it is, one less or three more, in every way together.
fn around(exact: Lengths) -> Vec<Lengths> {
    let near = |length: usize| [length.saturating_sub(1), length, length + 3];
    let mut all = Vec::new();
    for sizes in near(exact.sizes) {
        for pairs in near(exact.pairs) {
            all.extend(near(exact.rows).map(|rows| Lengths { sizes, pairs, rows }));
        }
    }
    all
}

#[test]
fn the_example() {
    let due = tables(&[1, 1], &[(0, 1, &[1])]);
    assert_eq!(write(&due), Ok(EXAMPLE.to_vec()));
    assert_eq!(read(&EXAMPLE), Ok(due));
}

#[test]
fn what_is_written_is_read_back() {
    for tables in good_tables() {
        let file = write(&tables).expect("good tables");
        assert_eq!(read(&file), Ok(tables.clone()));
        let mut memory = lent(Lengths::of(&tables));
        let taken = read_into(&file, &mut memory);
        assert_eq!((taken.refused, taken.written), (None, Lengths::of(&tables)));
        let Lent { sizes, pairs, rows } = memory;
        assert_eq!(Tables { sizes, pairs, rows }, tables);
    }
}

#[test]
fn the_writer_needs_just_the_files_bytes() {
    for tables in good_tables() {
        let file = write(&tables).expect("good tables");
        for room in [0, file.len() - 1, file.len(), file.len() + 1, file.len() + 9] {
            let mut memory = vec![0xA7; room];
            let reply = write_into(&tables, &mut memory);
            if room < file.len() {
                assert_eq!(reply, Err(Refusal { number: 26, place: 0 }));
                assert_eq!(memory, vec![0xA7; room]);
            } else {
                assert_eq!(reply, Ok(file.len()));
                assert_eq!(memory, [&file[..], &vec![0xA7; room - file.len()]].concat());
            }
        }
    }
}

#[test]
fn the_writer_begins_with_the_examination() {
    for group in fresh("bad", 8, 40).expect("a kind") {
        let Err(refusal) = examine(&group.tables) else { continue };
        for room in [0, 5000] {
            let mut memory = vec![0xA7; room];
            assert_eq!(write_into(&group.tables, &mut memory), Err(refusal));
            assert_eq!(memory, vec![0xA7; room]);
        }
    }
}

/// The records of tables that need not be sound.
fn laid_out(tables: &Tables) -> Vec<u8> {
    let mut file = sz(&tables.sizes);
    let mut words = tables.rows.iter().copied();
    for (lower, higher) in tables.listed_pairs() {
        let rows: Vec<u64> = words.by_ref().take(tables.sizes[lower].into()).collect();
        file.extend(pr(lower as u8, higher as u8, &rows));
    }
    assert_eq!(words.next(), None);
    [file, ed((tables.pairs.len() / 2) as u16)].concat()
}

#[test]
fn one_problem_has_one_file() {
    let (mut sound, mut unsound) = (0, 0);
    for file in files() {
        let Ok(tables) = read(&file) else { continue };
        assert_eq!(laid_out(&tables), file);
        match write(&tables) {
            Ok(written) => {
                assert_eq!(written, file);
                sound += 1;
            }
            Err(refusal) => {
                assert_eq!(examine(&tables), Err(refusal));
                unsound += 1;
            }
        }
    }
    assert!(sound >= 1000 && unsound >= 1000, "{sound} {unsound}");
}

/// How many bytes at the place are at fault: a mark, a boat, a count, a byte after ED.
fn at_fault(number: u64) -> usize {
    match number {
        21 | 24 => 2,
        _ => 1,
    }
}

#[test]
fn no_later_byte_changes_the_first_fault() {
    let mut random = Random::new(7);
    let mut seen = [0; 5];
    for file in files() {
        let Err(refusal) = read(&file) else { continue };
        seen[refusal.number as usize - 21] += 1;
        if refusal.number == 22 {
            continue;
        }
        let end = refusal.place + at_fault(refusal.number);
        let mut other = file[..end].to_vec();
        assert_eq!(read(&other), Err(refusal), "{file:?}");
        other.extend((end..file.len()).map(|_| random.word() as u8));
        assert_eq!(read(&other), Err(refusal), "{file:?}");
        other.truncate(end + random.index(other.len() - end + 1));
        assert_eq!(read(&other), Err(refusal), "{file:?}");
        other.extend((0..random.index(40)).map(|_| random.word() as u8));
        assert_eq!(read(&other), Err(refusal), "{file:?}");
    }
    assert!(seen.into_iter().min() >= Some(100), "{seen:?}");
}

#[test]
fn before_what_is_at_fault_the_file_only_ends_too_early() {
    for file in files() {
        let whole = match read(&file) {
            Ok(_) => file.len(),
            Err(Refusal { number: 22, place }) => {
                assert_eq!(place, file.len());
                continue;
            }
            // After ED nothing is missing.
            Err(Refusal { number: 25, place }) => {
                assert!(read(&file[..place]).is_ok());
                place
            }
            Err(Refusal { number, place }) => place + at_fault(number),
        };
        for length in [0, 1, 2, whole / 2, whole.saturating_sub(2), whole - 1] {
            if length < whole {
                assert_eq!(read(&file[..length]), Err(Refusal { number: 22, place: length }), "{file:?}");
            }
        }
    }
}

#[test]
fn lent_memory_is_too_small_exactly_when_a_part_is() {
    for file in files().iter().step_by(3) {
        let read = read(file);
        let exact = read.as_ref().map_or(Lengths { sizes: 2, pairs: 2, rows: 1 }, Lengths::of);
        for lengths in around(exact) {
            let (before, mut after) = (lent(lengths), lent(lengths));
            let taken = read_into(file, &mut after);
            let Ok(tables) = &read else {
                assert_eq!((taken.refused, taken.written), (read.clone().err(), Lengths::default()));
                assert_eq!(after, before);
                continue;
            };
            let Lengths { sizes, pairs, rows } = lengths;
            if sizes < exact.sizes || pairs < exact.pairs || rows < exact.rows {
                assert_eq!(taken.refused, Some(Refusal { number: 26, place: 0 }));
                assert_eq!((taken.written, after), (Lengths::default(), before));
                continue;
            }
            assert_eq!((taken.refused, taken.written), (examine(tables).err(), exact));
            assert_eq!(after.sizes, [&tables.sizes[..], &before.sizes[exact.sizes..]].concat());
            assert_eq!(after.pairs, [&tables.pairs[..], &before.pairs[exact.pairs..]].concat());
            assert_eq!(after.rows, [&tables.rows[..], &before.rows[exact.rows..]].concat());
        }
    }
}

#[test]
fn the_desk_asks_what_reading_and_the_plan_question_tell() {
    let mut told = Vec::new();
    for group in fresh("tiny", 9, 300).expect("a kind").into_iter().chain(every_file()) {
        for question in group.questions {
            let Question::Desk(file, plan, lengths) = question else { continue };
            let (mut by_reader, mut by_desk) = (lent(lengths), lent(lengths));
            let taken = read_into(&file, &mut by_reader);
            let answer = desk(&file, &plan, &mut by_desk);
            assert_eq!(by_reader, by_desk);
            let due = match (taken.refused, read(&file)) {
                (None, Ok(tables)) => match lawful(&tables, &plan) {
                    Ok(yes) => u64::from(!yes),
                    Err(refusal) => 100 + refusal.number,
                },
                (refused, _) => 100 + refused.expect("a refusal").number,
            };
            assert_eq!(answer, due);
            told.push(answer);
        }
    }
    for answer in [0, 1, 110, 111, 121, 122, 123, 124, 125, 126, 107, 102, 103, 151, 152, 153, 154] {
        assert!(told.contains(&answer), "{answer}");
    }
}

#[test]
fn two_bytes_count_up_to_65_535() {
    let file = |pairs: usize, count: u16| [sz(&[0, 1]), pr(0, 1, &[]).repeat(pairs), ed(count)].concat();
    let wrong = |pairs: usize| Err(Refusal { number: 24, place: 5 + 4 * pairs + 2 });
    assert_eq!(read(&file(65_535, 65_535)).map(|tables| tables.pairs.len()), Ok(131_070));
    assert_eq!(read(&file(65_536, 0)), wrong(65_536));
    assert_eq!(read(&file(65_536, 65_535)), wrong(65_536));
    assert_eq!(read(&file(65_537, 1)), wrong(65_537));
    assert_eq!(read(&file(65_535, 0)), wrong(65_535));
}

#[test]
fn the_largest_good_file() {
    let Some(group) = every_file().into_iter().find(|group| group.tables.pairs.len() == 2 * 2016) else {
        panic!("not asked about");
    };
    let file = write(&group.tables).expect("good tables");
    assert_eq!(file.len(), 1_040_327);
    assert_eq!(read(&file), Ok(group.tables));
}
