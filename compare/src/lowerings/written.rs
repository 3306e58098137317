//! The cases of the definitions, and the schemas of a folder, read and lowered.

use std::fs;
use std::io;
use std::path::Path;

use super::check::Checks;
use crate::cases::schemas_under;
use crate::definitions::call::Call;
use crate::definitions::graphs::cases;
use crate::events::{events_of_xml, pieces};
use crate::paper::agree::ROOMY;
use crate::paper::state::State;
use crate::reader;
use crate::tally::Tally;

/// How many seeds of the cases of the definitions are taken.
const SEEDS: u64 = 40;

/// The lowerings that the definitions are compared on.
pub fn compare() -> Vec<Tally> {
    let mut checks = Checks::new(
        "the cases of the definitions",
        "their graphs with the Rust's lower",
    );
    for case in (0..SEEDS).flat_map(cases) {
        if let Call::Lower(sheet, graph, scratch) = case.call {
            checks.lower_into(&sheet, &graph, &scratch);
        }
    }
    checks.tallies()
}

/// The schemas in `folder`, read by the library and lowered in each room after each piece.
///
/// # Errors
///
/// Returns the error where a file or folder cannot be read.
pub fn schemas(folder: &Path) -> io::Result<Vec<Tally>> {
    let mut checks = Checks::new(
        "the schemas, in seven rooms",
        "their graphs with the Rust's lower",
    );
    for file in schemas_under(folder)? {
        let Ok(text) = fs::read_to_string(file) else {
            continue;
        };
        let events = events_of_xml(&text).map_err(io::Error::other)?;
        let mut sheet = State::cleared().sheet(ROOMY);
        for piece in &pieces(&events) {
            reader::read(&mut sheet, piece);
            let state = State::of(&sheet).expect("a reading leaves a good sheet");
            checks.sheet_in_rooms(&sheet, &state);
        }
    }
    Ok(checks.tallies())
}
