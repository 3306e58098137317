//! Where the rows of a schema sheet come from in the file.

use lubiksan::SchemaSheet;

use crate::follow;
use crate::source::Source;

/// For each row of the sheet the byte of the tag that made it.
#[derive(Clone, Debug, Default, PartialEq, Eq)]
pub struct Places(Vec<usize>);

impl Places {
    /// The places of the rows of a sheet that was read from this source.
    pub fn of(source: &Source, sheet: &SchemaSheet<'_>) -> Places {
        let document = source.document();
        let rows = follow::rows(document, sheet.read_as(), sheet.events_done());
        let at = |index: &usize| document.events().get(*index).map_or(0, |event| event.at);
        match rows.len() == sheet.rows_used() {
            true => Places(rows.iter().map(at).collect()),
            false => Places::default(),
        }
    }

    /// The byte of the tag that made a row; none where it is not known.
    pub fn of_row(&self, row: usize) -> Option<usize> {
        self.0.get(row).copied()
    }
}
