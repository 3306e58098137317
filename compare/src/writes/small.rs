//! Every list of up to four elements and types of an alphabet, finished, and with the last one open where that is a type.

use super::check::Checks;
use crate::paper::sheet::Row;
use crate::paper::state::State;
use crate::tally::Tally;

/// The longest list.
const LONGEST: u32 = 4;

/// Each kind of item, without children and with some of each kind; empty texts, both quotes, references, numbers of every length.
fn alphabet() -> Vec<Vec<Row>> {
    vec![
        vec![Row::new(2, &["D", "T"])],
        vec![Row::new(2, &["", ""])],
        vec![Row::new(3, &["S", "xs:string"])],
        vec![
            Row::new(3, &["it's", ""]),
            Row::new(4, &["a\"b"]),
            Row::new(5, &["[&lt;']"]),
            Row::new(6, &[]),
            Row::new(7, &[]).with(u32::MAX, u32::MAX),
            Row::new(8, &["-1"]),
            Row::new(9, &[" \t\r\n"]),
            Row::new(10, &[]).with(u32::MAX, 0),
            Row::new(11, &[]).with(9, 0),
        ],
        vec![Row::new(12, &["Q"])],
        vec![
            Row::new(12, &["Q"]),
            Row::new(17, &["a", "b"]).with(0, 10),
            Row::new(18, &["", "\""]).with(99, 0),
        ],
        vec![Row::new(13, &["C"])],
        vec![Row::new(13, &[""]), Row::new(19, &["v", "&#65;"])],
        vec![Row::new(14, &["V", ""])],
        vec![
            Row::new(14, &["V", "b"]),
            Row::new(20, &["x", "y"]),
            Row::new(20, &["", ""]).with(1, 0),
        ],
        vec![Row::new(15, &["A"])],
        vec![Row::new(15, &["A", "##other"]).with(1, 0)],
    ]
}

/// All of them.
pub fn compare() -> Vec<Tally> {
    let mut checks = Checks::new("every short list of items, in six rooms");
    checks.in_rooms(&State::cleared());
    checks.in_rooms(&State::cleared_by(true));
    let alphabet = alphabet();
    for length in 0..=LONGEST {
        for number in 0..alphabet.len().pow(length) {
            let items = (0..length).map(|at| number / alphabet.len().pow(at) % alphabet.len());
            let rows: Vec<Row> = items.flat_map(|item| alphabet[item].clone()).collect();
            let last = rows
                .iter()
                .rfind(|row| row.is_head())
                .map_or(0, |row| row.tag);
            checks.in_rooms(&state(&rows, 0));
            match last {
                0 | 2 => {}
                3 => checks.written_in_rooms(&state(&rows, 2)),
                _ => checks.written_in_rooms(&state(&rows, 3)),
            }
        }
    }
    checks.tallies()
}

/// The state of these rows behind row 1 in this context.
fn state(rows: &[Row], context: u32) -> State {
    State {
        rows: [&[Row::new(1, &["urn:n"])], rows].concat(),
        context,
        root_seen: true,
        open_tags: context.min(2),
        ..State::cleared()
    }
}
