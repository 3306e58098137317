//! A schema file read into a sheet.

use std::error::Error;
use std::fmt;
use std::fs;
use std::io;
use std::path::{Path, PathBuf};

use lubiksan::{Graph, ReadAs, Refusal, SchemaSheet};

use crate::document::{Document, NoDocument};
use crate::xml::{line_and_column, Fault};

/// A schema that was read whole: its sheet, and its events with their places.
#[derive(Debug)]
pub struct Schema {
    sheet: SchemaSheet<'static>,
    document: Document,
    path: Option<PathBuf>,
}

/// A place in a text: line and column, both from 1; columns count characters.
#[derive(Clone, Copy, Debug, PartialEq, Eq)]
pub struct Place {
    /// The line.
    pub line: usize,
    /// The column.
    pub column: usize,
}

impl Place {
    fn of(text: &str, at: usize) -> Place {
        let (line, column) = line_and_column(text, at);
        Place { line, column }
    }
}

/// Why a schema was not read, and where: `FILE:LINE:COLUMN: words`, as far as these are known.
#[derive(Debug)]
pub struct NotRead {
    /// The file.
    pub path: Option<PathBuf>,
    /// The place in it.
    pub place: Option<Place>,
    /// What is wrong.
    pub why: Why,
}

/// What is wrong with a schema; also the [`source`](Error::source) of a [`NotRead`].
#[derive(Debug)]
#[non_exhaustive]
pub enum Why {
    /// The file can't be read.
    File(io::Error),
    /// It is no well-formed XML in UTF-8, or it has a document type.
    Document(NoDocument),
    /// A tag fits into no piece.
    TooLong(Fault),
    /// The library refuses an event or the lowering.
    Refused(Refusal),
}

impl fmt::Display for NotRead {
    fn fmt(&self, f: &mut fmt::Formatter<'_>) -> fmt::Result {
        if let Some(path) = &self.path {
            write!(f, "{}:", path.display())?;
        }
        if let Some(Place { line, column }) = self.place {
            write!(f, "{line}:{column}:")?;
        }
        if self.path.is_some() || self.place.is_some() {
            write!(f, " ")?;
        }
        match &self.why {
            Why::File(error) => write!(f, "it can't be read: {error}"),
            Why::Document(refused) => refused.fmt(f),
            Why::TooLong(fault) => fault.fmt(f),
            Why::Refused(refusal) => refusal.fmt(f),
        }
    }
}

impl Error for NotRead {
    fn source(&self) -> Option<&(dyn Error + 'static)> {
        match &self.why {
            Why::File(error) => Some(error),
            Why::Document(refused) => Some(refused),
            Why::TooLong(fault) => Some(fault),
            Why::Refused(refusal) => Some(refusal),
        }
    }
}

impl NotRead {
    fn new(why: Why, place: Option<Place>) -> NotRead {
        let path = None;
        NotRead { path, place, why }
    }

    /// The same of a file.
    fn of_file(mut self, path: &Path) -> NotRead {
        self.path = Some(path.to_owned());
        self
    }
}

impl Schema {
    /// Reads a file.
    ///
    /// # Errors
    ///
    /// [`NotRead`] where it can't be read, is no well-formed XML in UTF-8, has a document type, or where the library refuses an event.
    pub fn read(path: &Path, read_as: ReadAs) -> Result<Schema, NotRead> {
        let bytes = fs::read(path).map_err(|error| NotRead::new(Why::File(error), None));
        let read = bytes.and_then(|bytes| Schema::of_bytes(bytes, read_as));
        let mut schema = read.map_err(|refused| refused.of_file(path))?;
        schema.path = Some(path.to_owned());
        Ok(schema)
    }

    /// Reads the bytes of a file.
    ///
    /// # Errors
    ///
    /// As [`Schema::read`].
    pub fn of_bytes(bytes: Vec<u8>, read_as: ReadAs) -> Result<Schema, NotRead> {
        let document = Document::of(bytes).map_err(|refused| {
            let place = refused.place.as_ref();
            let place = place.map(|(text, at)| Place::of(text, *at));
            NotRead::new(Why::Document(refused), place)
        })?;
        let mut schema = Schema {
            sheet: SchemaSheet::cleared(read_as),
            document,
            path: None,
        };
        schema.read_events()?;
        Ok(schema)
    }

    /// Reads all events, piece by piece.
    fn read_events(&mut self) -> Result<(), NotRead> {
        while self.sheet.events_done() < self.document.events().len() {
            let first = self.sheet.events_done();
            let piece = self.document.piece(first, usize::MAX).map_err(|fault| {
                let place = Place::of(self.document.text(), fault.at);
                NotRead::new(Why::TooLong(fault), Some(place))
            })?;
            let read = self.sheet.read_buffers(&piece.text, &piece.marks);
            read.map_err(|refusal| {
                let place = refusal.event().and_then(|event| self.place_of(event));
                NotRead::new(Why::Refused(refusal), place)
            })?;
        }
        Ok(())
    }

    /// The graph of the schema.
    ///
    /// # Errors
    ///
    /// [`NotRead`] where the lowering is refused; of 13 and 20 with the place of the type.
    pub fn graph(&self) -> Result<Graph<'static>, NotRead> {
        let mut graph = Graph::new();
        match self.sheet.lower(&mut graph) {
            Ok(_) => Ok(graph),
            Err(refusal) => {
                let mut declared = self.sheet.declared();
                let refused = declared.find(|declared| declared.row == refusal.place());
                let place = refused.and_then(|declared| self.place(declared.event()));
                let mut refused = NotRead::new(Why::Refused(refusal), place);
                refused.path.clone_from(&self.path);
                Err(refused)
            }
        }
    }

    /// The sheet.
    pub fn sheet(&self) -> &SchemaSheet<'static> {
        &self.sheet
    }

    /// The sheet alone.
    pub fn into_sheet(self) -> SchemaSheet<'static> {
        self.sheet
    }

    /// The events of the text.
    pub fn document(&self) -> &Document {
        &self.document
    }

    /// The place of the tag of an event, as roots, types and declared items name it; none where the event is not known.
    pub fn place(&self, event: Option<u32>) -> Option<Place> {
        self.place_of(event? as usize)
    }

    fn place_of(&self, event: usize) -> Option<Place> {
        let event = self.document.events().get(event)?;
        Some(Place::of(self.document.text(), event.at))
    }
}
