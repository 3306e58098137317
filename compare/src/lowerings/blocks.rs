//! Types of one name in graphs that are too small for all heads at once: the search goes block by block, half as many heads as the table has numbers.

use super::check::{sheet_of, Checks, Room};
use crate::crowded::{crowded, parted};
use crate::paper::sheet::Row;
use crate::paper::state::State;
use crate::random::Random;
use crate::tally::Tally;

const SEED: u64 = 0x6c75_6269_6b2b;

/// The most heads of a sheet: more than two blocks of 32.
const HEADS: usize = 70;

/// How many random sheets are lowered into graphs of all short lengths.
const SHEETS: usize = 400;

/// All of them.
pub fn compare() -> Vec<Tally> {
    let mut checks = Checks::new(
        "types of one name, block by block",
        "their graphs with the Rust's lower",
    );
    every_pair(&mut checks);
    every_graph(&mut checks);
    one_bucket(&mut checks);
    checks.tallies()
}

/// A head of the kind that `kind` says: a simple type, or a complex one of one row or of two.
fn head(kind: usize, name: &str) -> Vec<Row> {
    match kind {
        0 => vec![Row::new(3, &[name, "string"])],
        1 => vec![Row::new(15, &[name])],
        _ => vec![Row::new(12, &[name]), Row::new(17, &["e", "T"]).with(1, 1)],
    }
}

/// The state of these heads behind row 1.
fn state(heads: Vec<Vec<Row>>) -> State {
    State {
        rows: [vec![Row::new(1, &["u"])], heads.concat()].concat(),
        root_seen: true,
        ..State::cleared()
    }
}

/// Up to 70 heads, two of which, in every pair of places, have one name; of one kind and of all kinds; in the smallest graph, in one with a table a little
/// longer than the scratch, and in one with room.
fn every_pair(checks: &mut Checks) {
    for count in [2, 3, 31, 32, 33, 34, 63, 64, 65, 66, HEADS] {
        for second in 0..count {
            for first in 0..=second {
                for kinds in [1, 3] {
                    let name = |at: usize| match at {
                        _ if at == second => format!("t_{first}"),
                        _ => format!("T{at}"),
                    };
                    let heads = (0..count).map(|at| head(at % kinds, &name(at))).collect();
                    let sheet = sheet_of(&state(heads));
                    for rows in [20, 70, 3_000] {
                        let room = Room {
                            rows,
                            names: 900,
                            scratch: 64,
                        };
                        checks.lower(&sheet, room);
                    }
                }
            }
        }
    }
}

/// Random sheets with none, one, or a few names that come twice, in graphs of all lengths up to twice the heads and with scratches around 64.
fn every_graph(checks: &mut Checks) {
    let mut random = Random::new(SEED);
    for _ in 0..SHEETS {
        let count = 1 + random.below(2 * HEADS);
        let repeated = [0, 1, 2, 9][random.below(4)];
        let mut names: Vec<usize> = (0..count).collect();
        for _ in 0..repeated {
            let (from, to) = (random.below(count), random.below(count));
            names[to] = from;
        }
        let heads = names
            .iter()
            .map(|name| head(random.below(3), &format!("N_{name}")))
            .collect();
        let sheet = sheet_of(&state(heads));
        for rows in (20..=10 * count + 40).step_by(10) {
            let room = Room {
                rows,
                names: [0, 2_000][random.below(2)],
                scratch: [64, 65, 66, 80, 129, 4_096][random.below(6)],
            };
            checks.lower(&sheet, room);
        }
    }
}

/// Heads whose names all stand in one bucket of the index, around the number from which it is kept in order, in three orders, every third name with an
/// underscore; none of them twice, or two, before and behind that number and in another block.
fn one_bucket(checks: &mut Checks) {
    for count in [15, 16, 17, 18, 33, HEADS, 600] {
        let mut names = crowded(count);
        for order in 0..3 {
            match order {
                0 => {}
                1 => names.sort(),
                _ => names.reverse(),
            }
            for kinds in [1, 3] {
                let last = count - 1;
                let pairs = [
                    (0, 0),
                    (0, 1),
                    (0, 14),
                    (14, last),
                    (0, 15),
                    (15, 16),
                    (0, 16),
                    (16, 17),
                    (0, last),
                    (last - 1, last),
                ];
                for (first, second) in pairs.into_iter().filter(|(_, second)| *second <= last) {
                    crowd(checks, &names, kinds, (first, second));
                }
            }
        }
    }
}

/// These heads, the second of the two places with the name of the first, in the smallest graph, in one with a table a little longer than the scratch, in one
/// that takes few blocks, with the longest scratch, and in one with room.
fn crowd(checks: &mut Checks, names: &[String], kinds: usize, (first, second): (usize, usize)) {
    let name = |at: usize| {
        let name = &names[if at == second { first } else { at }];
        match at % 3 {
            0 => parted(name),
            _ => name.clone(),
        }
    };
    let heads = (0..names.len())
        .map(|at| head(at % kinds, &name(at)))
        .collect();
    let sheet = sheet_of(&state(heads));
    let count = names.len();
    for (rows, scratch) in [
        (20, 64),
        (70, 64),
        (20 + 10 * (count / 4), 64),
        (20, 4_096),
        (40 * count + 40, 64),
    ] {
        let room = Room {
            rows,
            names: 20_000,
            scratch,
        };
        checks.lower(&sheet, room);
    }
}
