//! Lengths at, below and above each limit, texts of 65,536 bytes, the largest sheets.

use super::check::Checks;
use super::values::{finished, one_of_each, texts_of};
use crate::lowerings::check::sheet_of;
use crate::paper::answer;
use crate::paper::sheet::{fits, names_used, Lent, Row, Sheet};
use crate::paper::state::State;
use crate::paper::written::{written, Written};
use crate::tally::Tally;

const ROWS_MOST: usize = 40_960;
const NAMES_MOST: usize = 65_536;
const TEXT_MOST: usize = 65_536;
const LARGEST: Lent = Lent {
    rows: ROWS_MOST,
    names: NAMES_MOST,
};

/// All of them.
pub fn compare() -> Vec<Tally> {
    let mut checks =
        Checks::new("lengths around the limits, texts of 65,536 bytes, the largest sheets");
    lengths(&mut checks);
    longest_values(&mut checks);
    many_rows(&mut checks);
    numbers(&mut checks);
    checks.tallies()
}

/// Sheets of all short lengths and of the longest, good and bad contents, with texts of every kind of length.
fn lengths(checks: &mut Checks) {
    let small = finished(vec![Row::new(1, &["u"]), Row::new(15, &["T"])]);
    for rows in (0..=41).chain(ROWS_MOST - 11..=ROWS_MOST + 11) {
        for names in [0, 1, 2, 3, NAMES_MOST - 1, NAMES_MOST, NAMES_MOST + 1] {
            let lent = Lent { rows, names };
            let junk = Sheet {
                rows: vec![7; rows],
                names: vec![7; names],
            };
            let blank = Sheet {
                rows: vec![0; rows],
                names: vec![0; names],
            };
            let mut sheets = vec![junk, blank];
            if rows >= 20 {
                sheets.push(State::cleared().sheet(lent));
            }
            if rows >= 30 && names >= 2 {
                sheets.push(small.sheet(lent));
            }
            for sheet in &sheets {
                for text in [0, 1, 200, TEXT_MOST, TEXT_MOST + 1] {
                    checks.write(sheet, text);
                }
            }
        }
    }
    for text in [TEXT_MOST + 1, TEXT_MOST + 2, 100_000, 1 << 20] {
        let kept = vec![165; text];
        checks.against(&small.sheet(LARGEST), text, (answer(1, 0), kept));
    }
}

/// Each text of a schema in turn so long that the whole takes 65,535, 65,536 and 65,537 bytes; a fault behind it comes first all the same.
fn longest_values(checks: &mut Checks) {
    let Written::Text(short) = written(&finished(one_of_each())) else {
        return;
    };
    for (index, text) in texts_of(&one_of_each()) {
        for total in [TEXT_MOST - 1, TEXT_MOST, TEXT_MOST + 1] {
            let mut rows = one_of_each();
            // The text at hand has one byte.
            rows[index].texts[text] = "x".repeat(total - short.len() + 1);
            let state = finished(rows.clone());
            let sheet = state.sheet(LARGEST);
            let number = if total > TEXT_MOST { 23 } else { 0 };
            let place = if total > TEXT_MOST { 0 } else { total };
            let given = super::write(&sheet, &mut vec![0; TEXT_MOST]);
            checks.count_answer(total, answer(number, place as u32), given);
            match total {
                TEXT_MOST => checks.in_rooms(&state),
                _ => checks.written_in_rooms(&state),
            }
            let last = rows.len() - 1;
            rows[last].texts[0].push('<');
            let refused = (answer(22, last as u32 + 1), vec![0; 5]);
            checks.against(&sheet_of(&finished(rows)), 5, refused);
        }
    }
}

/// As many rows as a text of 65,536 bytes holds, one more and one less, and as many as a sheet holds.
fn many_rows(checks: &mut Checks) {
    let row = |tag: u32| match tag {
        6 | 7 | 10 | 11 => Row::new(tag, &[]).with(1, 0),
        2 | 17..=20 => Row::new(tag, &["a", "b"]),
        _ => Row::new(tag, &["a"]),
    };
    let heads = [
        (2, 0),
        (3, 4),
        (3, 6),
        (3, 11),
        (12, 17),
        (12, 18),
        (13, 19),
        (14, 20),
        (15, 0),
    ];
    for (head, child) in heads {
        let state = |count: usize| {
            let mut rows = vec![Row::new(1, &["u"])];
            match child {
                0 => rows.extend(vec![row(head); count]),
                _ => {
                    let texts: &[&str] = if [3, 14].contains(&head) {
                        &["h", "b"]
                    } else {
                        &["h"]
                    };
                    rows.push(Row::new(head, texts));
                    rows.extend(vec![row(child); count]);
                }
            }
            finished(rows)
        };
        let length = |count: usize| match written(&state(count)) {
            Written::Text(text) => text.len(),
            _ => usize::MAX,
        };
        let counts: Vec<usize> = (0..=4_093).collect();
        let fit = counts.partition_point(|&count| length(count) <= TEXT_MOST);
        for count in [fit.saturating_sub(1), fit, fit + 1, 4_092, 4_093] {
            let state = state(count);
            if fits(&state.rows, LARGEST) {
                match count + 1 == fit {
                    true => checks.in_rooms(&state),
                    false => checks.write(&state.sheet(LARGEST), TEXT_MOST),
                }
            }
        }
    }
    let most = vec![Row::new(2, &["12345678", "12345678"]); 4_094];
    let rows = [vec![Row::new(1, &["u"])], most].concat();
    assert!(names_used(&rows) <= NAMES_MOST, "the names fit");
    checks.write(&finished(rows).sheet(LARGEST), TEXT_MOST);
}

/// Numbers of every length in each place that holds one: the powers of ten and of two, one less and one more.
fn numbers(checks: &mut Checks) {
    let tens = (0..20).map(|power| 10u64.pow(power));
    let twos = (0..64).map(|power| 1u64 << power);
    for near in tens.chain(twos).chain([u64::MAX]) {
        for wide in [near - 1, near, near.saturating_add(1)] {
            let (low, high) = (wide as u32, (wide >> 32) as u32);
            let rows = vec![
                Row::new(1, &["u"]),
                Row::new(3, &["S", "b"]),
                Row::new(6, &[]).with(low, high),
                Row::new(7, &[]).with(high, low),
                Row::new(10, &[]).with(low, 0),
                Row::new(11, &[]).with(high, 0),
                Row::new(12, &["Q"]),
                Row::new(17, &["a", "b"]).with(low, high),
                Row::new(17, &["a", "b"]).with(high, low),
                Row::new(18, &["a", "b"]).with(low, 0),
            ];
            checks.in_rooms(&finished(rows));
        }
    }
}
