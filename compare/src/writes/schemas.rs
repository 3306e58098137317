//! The schemas of a folder, read under both choices, written after each piece and read again.

use std::fs;
use std::io;
use std::path::Path;

use super::check::Checks;
use crate::cases::schemas_under;
use crate::events::{events_of_xml, pieces};
use crate::paper::agree::ROOMY;
use crate::paper::state::State;
use crate::reader;
use crate::tally::Tally;
use crate::tape::Event;

/// After so many events each a schema is written, though it is not whole.
const EVENTS: usize = 150;

/// The schemas in `folder`, written when they are whole and, but for their rounds, after each part.
///
/// # Errors
///
/// Returns the error where a file or folder cannot be read.
pub fn compare(folder: &Path) -> io::Result<Vec<Tally>> {
    let mut checks = Checks::new("the schemas, in six rooms, under both choices");
    for file in schemas_under(folder)? {
        let Ok(text) = fs::read_to_string(file) else {
            continue;
        };
        let events = events_of_xml(&text).map_err(io::Error::other)?;
        for by_standard in [false, true] {
            one(&mut checks, &events, by_standard);
        }
    }
    Ok(checks.tallies())
}

fn one(checks: &mut Checks, events: &[Event], by_standard: bool) {
    let mut sheet = State::cleared_by(by_standard).sheet(ROOMY);
    for part in events.chunks(EVENTS) {
        for piece in &pieces(part) {
            reader::read(&mut sheet, piece);
        }
        let state = State::of(&sheet).expect("a reading leaves a good sheet");
        checks.written_in_rooms(&state);
    }
    let state = State::of(&sheet).expect("a reading leaves a good sheet");
    checks.in_rooms(&state);
}
