//! Lengths at, below and above each limit, and the largest graphs.

use super::check::{Checks, Room};
use crate::paper::sheet::{Lent, Row, Sheet};
use crate::paper::state::State;
use crate::tally::Tally;

const ROWS_MOST: usize = 40_960;
const NAMES_MOST: usize = 65_536;

/// All of them.
pub fn compare() -> Vec<Tally> {
    let mut checks = Checks::new(
        "lengths around the limits, the largest graphs",
        "their graphs with the Rust's lower",
    );
    lengths(&mut checks);
    scratch(&mut checks);
    many_types(&mut checks);
    many_bytes(&mut checks);
    checks.tallies()
}

/// The state of these rows behind row 1, all types finished.
fn finished(rows: Vec<Row>) -> State {
    let mut all = vec![Row::new(1, &["u"])];
    all.extend(rows);
    State {
        rows: all,
        root_seen: true,
        ..State::cleared()
    }
}

/// A sheet with one root, one accepted type and one open one.
fn small() -> State {
    let rows = vec![Row::new(2, &["D", "T"]), Row::new(15, &["T"])];
    finished(rows)
}

/// Schema sheets and graph sheets of all short lengths and of the longest, good and bad contents.
fn lengths(checks: &mut Checks) {
    for rows in (0..=41).chain(ROWS_MOST - 11..=ROWS_MOST + 11) {
        for names in [0, 1, 3, 4, NAMES_MOST - 1, NAMES_MOST, NAMES_MOST + 1] {
            let room = Room {
                rows,
                names,
                scratch: 64,
            };
            checks.lower(&State::cleared().sheet(ROOM), room);
            checks.lower(&small().sheet(ROOM), room);
            let junk = Sheet {
                rows: vec![7; rows],
                names: vec![7; names],
            };
            checks.lower(&junk, GRAPH);
            let mut blank = junk;
            blank.rows.fill(0);
            blank.names.fill(0);
            checks.lower(&blank, GRAPH);
            if rows >= 40 && names >= 4 {
                let lent = Lent { rows, names };
                checks.lower(&small().sheet(lent), GRAPH);
            }
        }
    }
}

/// Room for `small` and its graph.
const ROOM: Lent = Lent { rows: 50, names: 5 };
const GRAPH: Room = Room {
    rows: 60,
    names: 7,
    scratch: 64,
};

/// Scratch of all short lengths and a long one, on no types, one, and five of which one is open.
fn scratch(checks: &mut Checks) {
    let mut open = finished(vec![Row::new(15, &["A"]); 5]);
    open.context = 3;
    open.open_tags = 2;
    for state in [State::cleared(), small(), open] {
        let exact = Room::exact(&state);
        for scratch in (0..=7).chain(60..=70).chain([4_095, 4_096, 100_000]) {
            let sheet = state.sheet(Lent {
                rows: 80,
                names: 10,
            });
            checks.lower(&sheet, Room { scratch, ..exact });
        }
    }
}

/// The name of a type in a schema of many.
fn numbered(index: usize) -> String {
    format!("Type{index}Code")
}

/// As many types of one row as a sheet holds: all names different; each name twice, once with an underscore; one name for all; names of the same length
/// that differ in the last byte only; all names different but one, which is that of the type halfway; and in each case a refused type at the end.
fn many_types(checks: &mut Checks) {
    let names: [fn(usize) -> String; 7] = [
        numbered,
        |index| numbered(if index == 99 { 50 } else { index }),
        |index| numbered(if index == 4_092 { 2_046 } else { index }),
        |index| numbered(if index == 4_093 { 0 } else { index }),
        |index| match index % 2 {
            0 => numbered(index / 2),
            _ => format!("_{}", numbered(index / 2)),
        },
        |_| "T".to_owned(),
        |index| {
            format!(
                "{}{}",
                "N".repeat(index / 64 % 8),
                char::from(b'0' + (index % 64) as u8)
            )
        },
    ];
    for name in names {
        for count in [100, 4_093, 4_094] {
            let head = |index: usize| match index % 3 {
                0 => Row::new(3, &[&name(index), "date"]),
                _ => Row::new(15, &[&name(index)]),
            };
            let mut rows: Vec<Row> = (0..count).map(head).collect();
            one_of_many(checks, &rows);
            rows[count - 1] = Row::new(3, &["Last", "QName"]);
            one_of_many(checks, &rows);
        }
    }
}

fn one_of_many(checks: &mut Checks, rows: &[Row]) {
    let state = finished(rows.to_vec());
    let sheet = state.sheet(Lent {
        rows: ROWS_MOST,
        names: NAMES_MOST,
    });
    checks.sheet_in_rooms(&sheet, &state);
    let largest = Room {
        rows: ROWS_MOST,
        names: NAMES_MOST,
        scratch: 4_096,
    };
    checks.lower(&sheet, largest);
}

/// Graphs that take 65,535, 65,536 and 65,537 bytes: a field whose Rust name is longer than its own, a code, a variant, which is written twice,
/// and a reference; the last text takes up the rest.
fn many_bytes(checks: &mut Checks) {
    for long in [1_000, 16_000, 21_000] {
        let upper = "aB".repeat(long / 2);
        let lists = [
            vec![
                Row::new(12, &["S"]),
                Row::new(17, &[&upper, "a_b"]).with(1, 1),
            ],
            vec![Row::new(3, &["K", ""]), Row::new(4, &[&upper])],
            vec![Row::new(13, &["C"]), Row::new(19, &[&upper, &upper])],
        ];
        for mut rows in lists {
            let used = Room::exact(&finished(rows.clone())).names;
            for total in [NAMES_MOST - 1, NAMES_MOST, NAMES_MOST + 1] {
                let Some(left) = total.checked_sub(used + 1) else {
                    continue;
                };
                rows.push(Row::new(2, &[&"x".repeat(left), "y"]));
                largest_names(checks, &finished(rows.clone()));
                rows.pop();
            }
        }
    }
}

/// A sheet as long as it may be, where the state has room in it.
fn largest_names(checks: &mut Checks, state: &State) {
    let lent = Lent {
        rows: 100,
        names: NAMES_MOST,
    };
    if crate::paper::sheet::fits(&state.rows, lent) {
        checks.sheet_in_rooms(&state.sheet(lent), state);
        let room = Room {
            rows: ROWS_MOST,
            names: NAMES_MOST,
            scratch: 64,
        };
        checks.lower(&state.sheet(lent), room);
    }
}
