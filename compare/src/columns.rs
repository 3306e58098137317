//! Rows turned into columns and back: a model of order 10, written apart from the definitions, and the library compared with it.

use crate::random::Random;
use crate::tally::Tally;

mod call;

pub use call::{to_columns, to_rows};

/// How many numbers a row has.
const ROW: usize = 10;
const MODULUS: u64 = 4_294_967_296;

/// A call: source and target in, number and place out.
pub type Call = fn(&[u32], &mut [u32]) -> (u32, usize);

/// One of the two ways: its call, the other call, and its model.
struct Way {
    name: &'static str,
    call: Call,
    back: Call,
    model: fn(&[u32]) -> Vec<u32>,
}

const WAYS: [Way; 2] = [
    Way {
        name: "columns",
        call: to_columns,
        back: to_rows,
        model: model_columns,
    },
    Way {
        name: "rows",
        call: to_rows,
        back: to_columns,
        model: model_rows,
    },
];

/// Are these lengths of rows?
fn is_taken(source: usize, target: usize) -> bool {
    source == target && source.is_multiple_of(ROW) && (20..=40_960).contains(&source)
}

/// Each column by itself, then all of them joined.
pub fn model_columns(rows: &[u32]) -> Vec<u32> {
    let column = |at: usize| {
        let numbers = rows.chunks(ROW).map(move |row| u64::from(row[at]));
        let mut above = 0;
        numbers.map(move |number| {
            let difference = (number + MODULUS - above) % MODULUS;
            above = number;
            difference as u32
        })
    };
    (0..ROW).flat_map(column).collect()
}

/// The running sums of each column, put into a table, and the table read row by row.
pub fn model_rows(columns: &[u32]) -> Vec<u32> {
    let sums = |column: &[u32]| {
        let mut sum = 0;
        let mut sums = Vec::new();
        for &number in column {
            sum = (sum + u64::from(number)) % MODULUS;
            sums.push(sum as u32);
        }
        sums
    };
    let height = columns.len() / ROW;
    let table: Vec<Vec<u32>> = columns.chunks(height).map(sums).collect();
    (0..height)
        .flat_map(|row| table.iter().map(move |column| column[row]))
        .collect()
}

/// Compares both calls on `source` with a target of `length` numbers, and where it is taken that each undoes the other.
fn compare(tally: &mut Tally, source: &[u32], length: usize) {
    for Way {
        name,
        call,
        back,
        model,
    } in WAYS
    {
        let before: Vec<u32> = (0..length as u32).map(|k| k ^ 0x5555_5555).collect();
        let (mut target, kept) = (before.clone(), source.to_vec());
        let given = call(source, &mut target);
        let taken = is_taken(source.len(), length);
        let expected = match taken {
            true => ((0, 0), model(source)),
            false => ((1, 0), before),
        };
        tally.given(given.0);
        let input = (source.len(), length, &source[..source.len().min(30)]);
        let same = (given, &target) == (expected.0, &expected.1) && kept == source;
        tally.count(match same {
            true => Ok(()),
            false => Err(format!("{name} of {input:?} gives {given:?}")),
        });
        if taken {
            let mut again = vec![7; length];
            let undone = back(&target, &mut again) == (0, 0) && again == source;
            tally.count(match undone {
                true => Ok(()),
                false => Err(format!("{name} of {input:?} is not undone")),
            });
        }
    }
}

/// Numbers of a kind: any, small, at the ends, rising, all alike.
fn numbers(random: &mut Random, kind: usize, length: usize) -> Vec<u32> {
    const ENDS: [u32; 6] = [0, 1, 0x7fff_ffff, 0x8000_0000, u32::MAX - 1, u32::MAX];
    let start = random.next_u64() as u32;
    let number = |k: usize| match kind % 5 {
        0 => random.next_u64() as u32,
        1 => random.below(20) as u32,
        2 => ENDS[random.below(ENDS.len())],
        3 => start.wrapping_add(k as u32),
        _ => start,
    };
    (0..length).map(number).collect()
}

/// Every comparison; `rounds` for each height.
pub fn compared(rounds: usize) -> Vec<Tally> {
    let mut random = Random::new(10);
    let mut heights = Tally::new("columns and rows of every height to 40");
    for height in 0..=40 {
        for round in 0..rounds {
            let source = numbers(&mut random, round, ROW * height);
            compare(&mut heights, &source, source.len());
        }
    }
    let mut tallest = Tally::new("columns and rows of 4,095 and 4,096 rows");
    for round in 0..rounds.min(40) {
        for height in [4_095, 4_096] {
            let source = numbers(&mut random, round, ROW * height);
            compare(&mut tallest, &source, source.len());
        }
    }
    vec![heights, tallest, lengths(&mut random)]
}

/// Lengths at, below and above each limit, each with each.
fn lengths(random: &mut Random) -> Tally {
    let mut tally =
        Tally::new("columns and rows of lengths beside the limits, and of unequal lengths");
    let near = [0, 10, 20, 30, 100, 40_950, 40_960, 40_970, 65_536, 81_920];
    let lengths: Vec<usize> = near
        .iter()
        .flat_map(|&length| [length - length.min(1), length, length + 1])
        .collect();
    for &source in &lengths {
        let source = numbers(random, source, source);
        for &target in &lengths {
            compare(&mut tally, &source, target);
        }
    }
    tally
}

#[cfg(test)]
mod tests {
    use super::{model_columns, model_rows};

    #[test]
    fn the_model_on_two_rows_by_hand() {
        let rows: Vec<u32> = (0..10)
            .chain([5, 0, 2, 2, 4, 5, 6, 7, 8, u32::MAX])
            .collect();
        let columns = vec![
            0,
            5,
            1,
            u32::MAX,
            2,
            0,
            3,
            u32::MAX,
            4,
            0,
            5,
            0,
            6,
            0,
            7,
            0,
            8,
            0,
            9,
            u32::MAX - 9,
        ];
        assert_eq!(model_columns(&rows), columns);
        assert_eq!(model_rows(&columns), rows);
    }
}
