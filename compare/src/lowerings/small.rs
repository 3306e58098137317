//! Every list of up to four types and elements of an alphabet.

use super::check::Checks;
use crate::paper::sheet::Row;
use crate::paper::state::State;
use crate::tally::Tally;

/// The longest list.
const LONGEST: u32 = 4;

/// An element; simple types that are accepted and refused, whose names normalise to `A` and `AB`; complex types of every kind with these names.
fn alphabet() -> Vec<Vec<Row>> {
    vec![
        vec![Row::new(2, &["D", "a_b"])],
        vec![Row::new(3, &["A", "string"])],
        vec![Row::new(3, &["a_", "QName"])],
        vec![Row::new(3, &["_a", "QName"]), Row::new(4, &["TEST-VALUE"])],
        vec![
            Row::new(3, &["A_B", "my:decimal"]),
            Row::new(4, &["X"]),
            Row::new(10, &[]).with(18, 0),
            Row::new(6, &[]).with(5, 1),
        ],
        vec![
            Row::new(12, &["a_b"]),
            Row::new(17, &["FooBar", "a_"]).with(0, 1),
            Row::new(18, &["b", "xs:date"]).with(5, 0),
        ],
        vec![Row::new(13, &["A"]), Row::new(19, &["V", "boolean"])],
        vec![
            Row::new(14, &["AB", "a_b"]),
            Row::new(20, &["Ccy", "my:date"]).with(1, 0),
        ],
        vec![Row::new(15, &["A_"])],
        vec![Row::new(15, &["_", "n"]).with(1, 0)],
        vec![Row::new(15, &[""])],
    ]
}

/// All of them, in each room.
pub fn compare() -> Vec<Tally> {
    let mut checks = Checks::new(
        "every small schema, in seven rooms",
        "their graphs with the Rust's lower",
    );
    let alphabet = alphabet();
    for length in 0..=LONGEST {
        for number in 0..alphabet.len().pow(length) {
            checks.in_rooms(&schema(&alphabet, length, number));
        }
    }
    checks.tallies()
}

/// The schema of the list that `number` stands for.
fn schema(alphabet: &[Vec<Row>], length: u32, number: usize) -> State {
    let size = alphabet.len();
    let mut rows = vec![Row::new(1, &["u"])];
    for at in 0..length {
        rows.extend_from_slice(&alphabet[number / size.pow(at) % size]);
    }
    State {
        rows,
        root_seen: true,
        ..State::cleared()
    }
}
