//! Where the roots and types of a graph come from: the number of an event is its place in the file that was read whole.

use std::borrow::Cow;
use std::fs;
use std::path::{Component, Path, PathBuf};

use lubiksan::SchemaSheet;

use crate::source::Source;
use crate::xml::Lines;

/// The file whose events a sheet holds, where it is at hand.
pub struct Origins<'s> {
    source: Option<(&'s Source, Lines)>,
    /// The path that is shown.
    file: Cow<'s, Path>,
    hidden: bool,
}

/// A place in a file.
#[derive(Clone, Copy, Debug, PartialEq, Eq)]
pub struct Origin<'o> {
    /// The file as it was given, or its path from another file.
    pub file: &'o Path,
    /// The line, from 1.
    pub line: usize,
}

impl<'s> Origins<'s> {
    /// The places in this file; without it none is known.
    pub fn of(source: Option<&'s Source>) -> Origins<'s> {
        Origins {
            source: source.map(|source| (source, Lines::of(source.document().text()))),
            file: Cow::Borrowed(source.map_or(Path::new(""), Source::path)),
            hidden: false,
        }
    }

    /// The same places, with the path of the source from `file` on.
    pub fn from_beside(mut self, file: &Path) -> Origins<'s> {
        if let Some((source, _)) = self.source {
            self.file = Cow::Owned(beside(source.path(), file));
        }
        self
    }

    /// No place and no event is to be shown.
    pub fn hidden() -> Origins<'s> {
        Origins {
            source: None,
            file: Cow::Borrowed(Path::new("")),
            hidden: true,
        }
    }

    /// The number of an event, where it is to be shown.
    pub fn shown(&self, event: Option<u32>) -> Option<u32> {
        event.filter(|_| !self.hidden)
    }

    /// The place of the tag of an event; none where the event is not known.
    pub fn at(&self, event: Option<u32>) -> Option<Origin<'_>> {
        let (source, lines) = self.source.as_ref()?;
        let at = tag_at(source, event)?;
        Some(Origin {
            file: &self.file,
            line: lines.line(at),
        })
    }
}

/// The path of `path` from the folder in which `file` stands, as it is where one of these folders is not there.
pub fn beside(path: &Path, file: &Path) -> PathBuf {
    let found = || {
        let (to, from) = (folder_of(path)?, folder_of(file)?);
        let both = to.components().zip(from.components());
        let shared = both.take_while(|(one, other)| one == other).count();
        let up = from.components().skip(shared).map(|_| Component::ParentDir);
        let mut found: PathBuf = up.chain(to.components().skip(shared)).collect();
        found.push(path.file_name()?);
        Some(found)
    };
    found().unwrap_or_else(|| path.to_owned())
}

/// The folder in which a file stands, without links.
fn folder_of(file: &Path) -> Option<PathBuf> {
    let folder = match file.parent()? {
        here if here.as_os_str().is_empty() => Path::new("."),
        folder => folder,
    };
    fs::canonicalize(folder).ok()
}

/// Where in a source the tag stands that gave the element or type of a row its name; none where its number is not known.
pub fn named_at(source: &Source, sheet: &SchemaSheet<'_>, row: usize) -> Option<usize> {
    let declared = sheet.declared().find(|declared| declared.row == row)?;
    tag_at(source, declared.event())
}

/// The byte of the tag of an event.
fn tag_at(source: &Source, event: Option<u32>) -> Option<usize> {
    let events = source.document().events();
    events.get(event? as usize).map(|event| event.at)
}
