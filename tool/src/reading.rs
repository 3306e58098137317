//! Events read into a schema sheet, and the sheet lowered.

use std::path::Path;

use lubiksan::{Graph, ReadAs, SchemaSheet};

use crate::explain;
use crate::failure::Failure;
use crate::interrupt;
use crate::source::Source;

/// Reads on where the sheet stands, at most `most` events. `after` is called when a piece was read, also where the
/// library refused one of its events.
///
/// # Errors
///
/// [`Failure`] for a refused event, a tag that is too long, an interrupt, or what `after` fails with.
pub fn read_on(
    source: &Source,
    sheet: &mut SchemaSheet<'_>,
    most: usize,
    mut after: impl FnMut(&SchemaSheet<'_>) -> Result<(), Failure>,
) -> Result<(), Failure> {
    let document = source.document();
    let end = document
        .events()
        .len()
        .min(sheet.events_done().saturating_add(most));
    while sheet.events_done() < end {
        interrupt::stop_if_asked()?;
        let first = sheet.events_done();
        let piece = document
            .piece(first, end - first)
            .map_err(|fault| source.too_long(&fault))?;
        let read = sheet.read_buffers(&piece.text, &piece.marks);
        after(sheet)?;
        read.map_err(|refusal| explain::reading(source, &refusal))?;
    }
    Ok(())
}

/// Reads a source whole into a new sheet.
///
/// # Errors
///
/// As [`read_on`].
pub fn read_whole(source: &Source, read_as: ReadAs) -> Result<SchemaSheet<'static>, Failure> {
    let mut sheet = SchemaSheet::cleared(read_as);
    read_on(source, &mut sheet, usize::MAX, |_| Ok(()))?;
    Ok(sheet)
}

/// The graph of a sheet. `file` names it, `source` is there where the sheet was just read.
///
/// # Errors
///
/// [`Failure`] where the lowering is refused.
pub fn lowered(
    file: &Path,
    source: Option<&Source>,
    sheet: &SchemaSheet<'_>,
) -> Result<Graph<'static>, Failure> {
    let mut graph = Graph::new();
    match sheet.lower(&mut graph) {
        Ok(_) => Ok(graph),
        Err(refusal) => Err(explain::lowering(file, source, sheet, &refusal)),
    }
}
