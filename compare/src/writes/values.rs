//! What XML 1.0 can't hold in an attribute: every byte in every text, every short value, every character reference, and the place of each kind of fault.

use super::check::Checks;
use crate::lowerings::check::sheet_of;
use crate::paper::answer;
use crate::paper::sheet::{Row, Sheet};
use crate::paper::state::State;
use crate::tally::Tally;

/// Every kind of row with texts. Row 1 is the first.
pub fn one_of_each() -> Vec<Row> {
    vec![
        Row::new(1, &["u"]),
        Row::new(2, &["a", "b"]),
        Row::new(3, &["c", "d"]),
        Row::new(4, &["e"]),
        Row::new(5, &["f"]),
        Row::new(7, &[]).with(70, 0),
        Row::new(8, &["g"]),
        Row::new(9, &["h"]),
        Row::new(12, &["i"]),
        Row::new(17, &["j", "k"]).with(1, 1),
        Row::new(18, &["l", "m"]),
        Row::new(13, &["n"]),
        Row::new(19, &["o", "p"]),
        Row::new(14, &["q", "r"]),
        Row::new(20, &["s", "t"]).with(1, 0),
        Row::new(15, &["v"]),
        Row::new(15, &["w", "x"]).with(1, 0),
    ]
}

/// The texts of these rows: the index of the row in them and of the text in it.
pub fn texts_of(rows: &[Row]) -> Vec<(usize, usize)> {
    let of_row = |index: usize| (0..rows[index].texts.len()).map(move |text| (index, text));
    (0..rows.len()).flat_map(of_row).collect()
}

/// The state of these rows, all finished.
pub fn finished(rows: Vec<Row>) -> State {
    State {
        rows,
        root_seen: true,
        ..State::cleared()
    }
}

/// What stands before and behind the byte.
const AROUND: [(&str, &str); 9] = [
    ("", ""),
    ("a", "b"),
    ("\"", ""),
    ("", "'"),
    ("&", ";"),
    ("&#", ";"),
    ("&#x", ";"),
    ("&am", ";"),
    ("&gt", "&lt;"),
];

/// Every byte in every text, alone and with others around it.
pub fn bytes() -> Vec<Tally> {
    let mut checks = Checks::new("every byte in every text, in nine surroundings");
    for (index, text) in texts_of(&one_of_each()) {
        for (before, behind) in AROUND {
            let mut rows = one_of_each();
            rows[index].texts[text] = format!("{before}?{behind}");
            let mut sheet = sheet_of(&finished(rows));
            let at = sheet.rows[10 * (index + 1) + 1 + 2 * text] as usize + before.len();
            for byte in 0..=255 {
                sheet.names[at] = byte;
                checks.write(&sheet, 2_000);
                checks.write(&sheet, 0);
            }
        }
    }
    checks.tallies()
}

/// The sheet of a schema with this namespace and nothing in it.
fn of_namespace(value: &str) -> Sheet {
    sheet_of(&finished(vec![Row::new(1, &[value])]))
}

/// The text of a schema with this namespace, whose quotes are given, and nothing in it.
fn text_of(value: &str, quote: char) -> String {
    format!("<xs:schema xmlns:xs=\"http://www.w3.org/2001/XMLSchema\" targetNamespace={quote}{value}{quote}></xs:schema>")
}

/// The parts of the short values.
const PARTS: [&str; 13] = [
    "&", "#", "x", "0", "9", "F", ";", "a", "m", "p", "<", "\"", "'",
];
/// The longest of them.
const LONGEST: u32 = 5;

/// Every value of up to five of the parts, with the model and with other parsers.
pub fn short() -> Vec<Tally> {
    let mut checks = Checks::new("every short value");
    for length in 0..=LONGEST {
        for number in 0..PARTS.len().pow(length) {
            let parts = (0..length).map(|at| number / PARTS.len().pow(at) % PARTS.len());
            let value: String = parts.map(|part| PARTS[part]).collect();
            let sheet = of_namespace(&value);
            checks.write(&sheet, 120);
            if number % 4 == 0 {
                let held = super::write(&sheet, &mut [0; 120]).number == 0;
                checks.value(&value, held);
            }
        }
    }
    checks.tallies()
}

/// By hand from [2] Char, with Rust's own notion of a code point.
fn is_char(point: u32) -> bool {
    let outside = [0xFFFE, 0xFFFF].contains(&point);
    let control = point < 32 && ![9, 10, 13].contains(&point);
    char::from_u32(point).is_some() && !outside && !control
}

/// The number of a fault in row 1, or 0 with the text, by hand.
fn by_hand(value: &str, held: bool, lent: usize) -> (crate::paper::Answer, Vec<u8>) {
    let mut bytes = vec![0; lent];
    if !held {
        return (answer(22, 1), bytes);
    }
    let text = text_of(value, '"');
    bytes[..text.len()].copy_from_slice(text.as_bytes());
    (answer(0, text.len() as u32), bytes)
}

/// Every character reference in decimal and in hexadecimal digits, up to a little above the last code point; long ones.
pub fn references() -> Vec<Tally> {
    let mut checks = Checks::new("every character reference");
    for point in 0..=0x11_0010u32 {
        let hexadecimal = match point % 3 {
            0 => format!("&#x{point:x};"),
            1 => format!("&#x{point:X};"),
            _ => format!("&#x00{point:x};"),
        };
        for value in [format!("&#{point};"), hexadecimal] {
            checks.against(
                &of_namespace(&value),
                130,
                by_hand(&value, is_char(point), 130),
            );
            if point % 61 == 0 || point < 300 {
                checks.value(&value, is_char(point));
            }
        }
    }
    for shift in [20, 21, 24, 31, 32, 33, 36, 40, 63, 64, 65, 68, 100] {
        // 65 and a power of two: a number that wrapped around would be 65.
        let large = (1u128 << shift) + 65;
        for value in [format!("&#{large};"), format!("&#x{large:x};")] {
            let held = u32::try_from(large).is_ok_and(is_char);
            checks.against(&of_namespace(&value), 200, by_hand(&value, held, 200));
            checks.value(&value, held);
        }
    }
    for zeros in [1, 10, 100, 1_000, 60_000] {
        let zeros = "0".repeat(zeros);
        for (digits, held) in
            [("&#", 65), ("&#x", 0x41), ("&#", 8), ("&#x", 0)].map(|(start, n)| {
                let digits = if start.len() == 3 {
                    format!("{n:x}")
                } else {
                    n.to_string()
                };
                (format!("{start}{zeros}{digits};"), is_char(n))
            })
        {
            checks.against(
                &of_namespace(&digits),
                65_000,
                by_hand(&digits, held, 65_000),
            );
            checks.value(&digits, held);
        }
    }
    checks.tallies()
}

/// Values that are not held, each for one reason.
fn faults() -> Vec<String> {
    let mut faults: Vec<String> = [
        "<",
        "a<b",
        "<!--",
        "\"'",
        "'\"",
        "it's \"x\"",
        "&",
        "&;",
        "&am",
        "&amp",
        "& amp;",
        "&Amp;",
        "&AMP;",
        "&nbsp;",
        "&#;",
        "&#x;",
        "&#X41;",
        "&#0;",
        "&#31;",
        "&#65",
        "&#-1;",
        "&#6 5;",
        "&#xG;",
        "&#A;",
        "&#xD800;",
        "&#xDFFF;",
        "&#xFFFE;",
        "&#xFFFF;",
        "&#x110000;",
        "&#4294967361;",
        "&amp;&",
        "a&b;",
        "&&amp;",
    ]
    .map(str::to_owned)
    .to_vec();
    let controls = (0..32u8).filter(|byte| ![9, 10, 13].contains(byte));
    faults.extend(controls.map(|byte| format!("a{}", char::from(byte))));
    faults
}

/// Each kind of fault in each text: the place is its row; of two the first by row; in an open type there is none.
pub fn places() -> Vec<Tally> {
    let mut checks = Checks::new("the place of each kind of fault in each text");
    let texts = texts_of(&one_of_each());
    let refused = |row: usize, lent: usize| (answer(22, row as u32), vec![0; lent]);
    for fault in faults() {
        checks.value(&fault, false);
        for &(index, text) in &texts {
            let mut rows = one_of_each();
            rows[index].texts[text].clone_from(&fault);
            let sheet = sheet_of(&finished(rows.clone()));
            for lent in [0, 1, 2_000, 65_536] {
                checks.against(&sheet, lent, refused(index + 1, lent));
            }
            // Another fault behind it, or before it.
            for &(other, text) in texts.iter().step_by(5) {
                let mut rows = rows.clone();
                rows[other].texts[text] = "<".to_owned();
                let sheet = sheet_of(&finished(rows));
                checks.against(&sheet, 9, refused(index.min(other) + 1, 9));
            }
        }
        open_type(&mut checks, &fault);
    }
    cut_by_pairs(&mut checks);
    checks.tallies()
}

/// "all below row 0 but an open type": faults there are not judged.
fn open_type(checks: &mut Checks, fault: &str) {
    let opens = [
        (2, vec![Row::new(3, &[fault, "b"]), Row::new(5, &[fault])]),
        (2, vec![Row::new(3, &["S", fault])]),
        (3, vec![Row::new(16, &[fault])]),
        (3, vec![Row::new(12, &["Q"]), Row::new(17, &["a", fault])]),
        (3, vec![Row::new(15, &["A", fault]).with(1, 0)]),
    ];
    for (context, open) in opens {
        let state = State {
            rows: [vec![Row::new(1, &["n"])], open].concat(),
            context,
            root_seen: true,
            open_tags: 2,
            ..State::cleared()
        };
        let expected = by_hand("n", true, 150);
        checks.against(&sheet_of(&state), 150, expected);
    }
}

/// A reference or a quote that goes on in the next text of the row, or of the next row.
fn cut_by_pairs(checks: &mut Checks) {
    for (first, second, held) in [
        ("&am", "p;", false),
        ("&", "amp;", false),
        ("&#6", "5;", false),
        ("a", "&am", false),
        ("\"", "'", true),
        ("&amp;", ";", true),
    ] {
        let rows = vec![Row::new(1, &["n"]), Row::new(2, &[first, second])];
        let sheet = sheet_of(&finished(rows));
        match held {
            true => checks.write(&sheet, 200),
            false => checks.against(&sheet, 200, (answer(22, 2), vec![0; 200])),
        }
        let rows = vec![Row::new(1, &[first]), Row::new(2, &[second, ""])];
        checks.write(&sheet_of(&finished(rows)), 200);
    }
    // By hand: the quotes of two values of one tag go each by its own value.
    let rows = vec![Row::new(1, &["\""]), Row::new(2, &["\"", "'"])];
    let text = text_of("\"", '\'');
    let text = text.replace("></", "><xs:element name='\"' type=\"'\"/></");
    let expected = (answer(0, text.len() as u32), text.clone().into_bytes());
    checks.against(&sheet_of(&finished(rows)), text.len(), expected);
}
