//! Random tables of each kind.

use crate::random::Random;
use crate::tables::Tables;

pub const KINDS: [&str; 8] = ["tiny", "small", "phase", "sparse", "dense", "wide", "crowded", "full"];

/// What a random table is drawn from; the last two are in thousandths.
struct Shape {
    boats: u64,
    sizes: (u64, u64),
    listed: u64,
    shut: u64,
}

/// A random table of a kind, or none if the kind isn't known.
pub fn random_tables(random: &mut Random, kind: &str) -> Option<Tables> {
    let shape = match kind {
        "tiny" => any(random, 4, 3),
        "small" => any(random, 6, 4),
        "phase" => phase(random),
        "sparse" => sparse(random),
        "dense" => dense(random),
        "wide" => wide(random),
        "crowded" => crowded(random),
        "full" => full(random),
        _ => return None,
    };
    let mut tables = draw(random, &shape);
    if kind == "wide" {
        long_boats(random, &mut tables);
    }
    Some(tables)
}

fn any(random: &mut Random, most_boats: u64, most_slots: u64) -> Shape {
    let boats = random.between(1, most_boats);
    Shape { boats, sizes: (1, most_slots), listed: random.between(0, 1000), shut: random.between(0, 1000) }
}

/// Near the point where one lawful plan is expected: slots^boats * (1-shut)^pairs = 1.
fn phase(random: &mut Random) -> Shape {
    let (boats, slots) = (random.between(10, 14), random.between(4, 6));
    let listed = random.between(300, 700);
    let pairs_per_boat = (boats - 1) as f64 * listed as f64 / 2000.0;
    let shut = 1.0 - (slots as f64).powf(-1.0 / pairs_per_boat);
    let shut = (1000.0 * shut).round() as u64 + random.between(0, 60) - 30;
    Shape { boats, sizes: (slots, slots), listed, shut }
}

fn sparse(random: &mut Random) -> Shape {
    let (boats, listed) = (random.between(8, 16), random.between(80, 250));
    Shape { boats, sizes: (2, 5), listed, shut: random.between(400, 800) }
}

fn dense(random: &mut Random) -> Shape {
    let (boats, listed) = (random.between(8, 12), random.between(850, 1000));
    Shape { boats, sizes: (2, 6), listed, shut: random.between(150, 450) }
}

/// Loose half the time, since with one tight pair in so many boats there is mostly no plan.
fn wide(random: &mut Random) -> Shape {
    let (high, listed) = (random.between(1, 5), random.between(3, 40));
    let shut = random.one_of(&[50, 150, 250, 400, 550, 700]);
    Shape { boats: 64, sizes: (high.min(2), high), listed, shut }
}

/// All 2,016 pairs of few slots each; near 35 thousandths shut one lawful plan is expected.
fn crowded(random: &mut Random) -> Shape {
    Shape { boats: 64, sizes: (2, 4), listed: 1000, shut: random.between(5, 40) }
}

/// Every limit at once: 64 boats of size 64 and all 2,016 pairs; a line is about two million bytes.
fn full(random: &mut Random) -> Shape {
    Shape { boats: 64, sizes: (64, 64), listed: 1000, shut: random.between(0, 150) }
}

/// Gives a few boats that are lower in no pair up to 64 slots, so that the rows still fit.
fn long_boats(random: &mut Random, tables: &mut Tables) {
    for _ in 0..random.between(0, 4) {
        let boat = random.index(tables.boats());
        if tables.listed_pairs().all(|(lower, _)| lower != boat) {
            tables.sizes[boat] = random.one_of(&[5, 31, 32, 33, 63, 64]);
        }
    }
}

fn draw(random: &mut Random, shape: &Shape) -> Tables {
    let mut tables = Tables::default();
    for _ in 0..shape.boats {
        tables.sizes.push(random.between(shape.sizes.0, shape.sizes.1) as u8);
    }
    for lower in 0..tables.boats() {
        for higher in lower + 1..tables.boats() {
            if !random.chance(shape.listed) {
                continue;
            }
            tables.pairs.extend([lower as u8, higher as u8]);
            for _slot in 0..tables.sizes[lower] {
                tables.rows.push(draw_row(random, tables.sizes[higher], shape.shut));
            }
        }
    }
    tables
}

fn draw_row(random: &mut Random, slots: u8, shut: u64) -> u64 {
    let mut row = 0;
    for bit in 0..slots {
        if !random.chance(shut) {
            row |= 1 << bit;
        }
    }
    row
}
