//! The cases of the definitions, lengths around the limits, and the schemas of a folder.

use std::fs;
use std::io;
use std::path::Path;

use super::check::{rooms, Checks};
use crate::cases::schemas_under;
use crate::definitions::call::Call;
use crate::definitions::reading_cases;
use crate::events::{events_of_xml, pieces};
use crate::paper::agree::ROOMY;
use crate::paper::sheet::{Lent, Row, Sheet};
use crate::paper::state::State;
use crate::tally::Tally;
use crate::tape::{events, xml, Event, Tape};

/// How many seeds of the cases of the definitions are taken.
const SEEDS: u64 = 4;

/// The cases of reading and clearing that the definitions are compared on, and lengths.
pub fn compare() -> Vec<Tally> {
    let mut checks = Checks::new(
        "the cases of the definitions, lengths around the limits, the largest sheets and tapes",
        "their states with the Rust's handlers",
        "no documents",
    );
    for case in (0..SEEDS).flat_map(reading_cases) {
        match case.call {
            Call::Clear(sheet, choice) => checks.clear(&sheet, choice),
            Call::Read(sheet, tape) => drop(checks.read(&sheet, &tape)),
            _ => {}
        }
    }
    lengths(&mut checks);
    largest_sheets(&mut checks);
    largest_tapes(&mut checks);
    checks.tallies()
}

/// Sheets of all short lengths and of the longest, cleared and read.
fn lengths(checks: &mut Checks) {
    let close = Tape::of(&[Event::Close]);
    for rows in (0..=41).chain(40_949..=40_971) {
        for names in [0, 1, 65_535, 65_536, 65_537] {
            let sheet = Sheet {
                rows: vec![7; rows],
                names: vec![7; names],
            };
            for choice in [0, 1, 2, u32::MAX] {
                checks.clear(&sheet, choice);
            }
            checks.read(&sheet, &close);
        }
    }
}

/// An open simple type, 4,093 rows with row 0 and 65,443 bytes of names: room for three rows and 93
/// bytes more.
fn nearly_full() -> State {
    let mut rows = vec![Row::new(1, &["u"]), Row::new(3, &["A", "b"])];
    rows.resize(4_092, Row::new(4, &["sixteen bytes ok"]));
    State {
        rows,
        context: 2,
        root_seen: true,
        open_tags: 2,
        ..State::cleared()
    }
}

/// Facets and bases of all lengths around the room that is left in the largest sheet.
fn largest_sheets(checks: &mut Checks) {
    let sheet = nearly_full().sheet(ROOMY);
    for length in [0, 1, 30, 31, 32, 45, 46, 47, 91, 92, 93, 94, 95, 200] {
        let value = "v".repeat(length);
        let facet = events(&format!("<enumeration value='{value}'/>"));
        checks.read(&sheet, &Tape::of(&[&facet[..]; 5].concat()));
        let base = events(&format!("<restriction base='{value}'/><pattern value=p/>"));
        checks.read(&sheet, &Tape::of(&[&base[..]; 2].concat()));
        let closed = events(&format!("</></><schema targetNamespace='{value}'>"));
        checks.read(&sheet, &Tape::of(&closed));
    }
}

/// Text and marks of the largest lengths, each pair at the end of the text, and one too many.
fn largest_tapes(checks: &mut Checks) {
    let sheet = State::cleared().sheet(Lent { rows: 20, names: 3 });
    for (text, pairs) in [
        (65_536, 2_730),
        (65_536, 2_731),
        (65_537, 1),
        (65_535, 2_730),
    ] {
        let mut tape = Tape {
            text: vec![b'x'; text],
            marks: [1, 0, text as u32 - 1, 1, 3, 0].repeat(pairs),
        };
        checks.read(&sheet, &tape);
        tape.marks.extend([2, 0, 65_536, 0]);
        checks.read(&sheet, &tape);
    }
}

/// The schemas in `folder` in pieces as long as the limits allow, in the rooms at, one below and one
/// above what each needs.
///
/// # Errors
///
/// Returns the error where a file or folder cannot be read.
pub fn schemas(folder: &Path) -> io::Result<Vec<Tally>> {
    let mut checks = Checks::new(
        "the schemas, in five rooms",
        "their states with the Rust's handlers",
        "the schemas with the Rust's parse_str",
    );
    for file in schemas_under(folder)? {
        let Ok(text) = fs::read_to_string(file) else {
            continue;
        };
        let events = events_of_xml(&text).map_err(io::Error::other)?;
        schema(&mut checks, &events);
    }
    Ok(checks.tallies())
}

fn schema(checks: &mut Checks, events: &[Event]) {
    let rooms = rooms(&State::cleared(), events);
    let pieces = pieces(events);
    for &lent in &rooms {
        let mut sheet = State::cleared().sheet(lent);
        for piece in &pieces {
            sheet = checks.read(&sheet, piece);
        }
    }
    if pieces.len() == 1 && xml(events).is_some() {
        checks.document(rooms[0], events);
    }
}
