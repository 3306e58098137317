//! Where the graph is not the schema: what a tag of a type says and the graph does not keep, found from the document.

use std::collections::BTreeMap;

use lubiksan::names::normalize_type_name;
use lubiksan::{ReadAs, SchemaSheet};

use crate::failure::{named, quoted};
use crate::formats::plural;
use crate::source::Source;

mod find;
mod words;

pub use words::Kind;

/// So many places are said; `--verbose` says all.
pub const MOST: usize = 10;

/// A place.
#[derive(Clone, Debug, PartialEq, Eq)]
pub struct Place<'d> {
    /// What is not kept.
    pub kind: Kind,
    /// The number of the tag among the events.
    pub event: usize,
    /// The byte of the tag.
    pub at: usize,
    /// The name of the type as the schema spells it; none for a root element.
    pub type_name: Option<&'d str>,
    /// The elements, attributes or codes that it is about, as the schema spells them; none where it is about the whole type.
    pub fields: Vec<&'d str>,
    /// What it is in words, behind the type.
    pub words: String,
    /// The same for a comment beside the field or type.
    pub note: String,
}

/// The places of a source.
#[derive(Clone, Debug, Default, PartialEq, Eq)]
pub struct NotKept<'d> {
    /// The places in the order of the file.
    pub places: Vec<Place<'d>>,
}

impl<'d> NotKept<'d> {
    /// The places of the events that a sheet has read of its source.
    pub fn of(source: &'d Source, sheet: &SchemaSheet<'_>) -> NotKept<'d> {
        NotKept::of_events(source, sheet.read_as(), sheet.events_done())
    }

    /// The places of the first `done` events of a source that is read in this way.
    pub fn of_events(source: &'d Source, read_as: ReadAs, done: usize) -> NotKept<'d> {
        let places = find::places(source.document(), read_as, done);
        NotKept { places }
    }

    /// How many places a source has that is read to its end.
    pub fn count(source: &Source, read_as: ReadAs) -> usize {
        find::count(source.document(), read_as)
    }

    /// A line for each place, `most` of them, then how many more, then how many of each kind; nothing where there is no place.
    pub fn lines(&self, source: &Source, most: usize) -> Vec<String> {
        if self.places.is_empty() {
            return Vec::new();
        }
        let line = |place: &Place<'_>| source.at(place.at, &place.sentence());
        let mut lines: Vec<String> = self.places.iter().take(most).map(line).collect();
        if self.places.len() > most {
            let more = self.places.len() - most;
            lines.push(format!(
                "{}: and {more} more {}, --verbose says all",
                named(source.path()),
                plural(more as u64, "place")
            ));
        }
        lines.push(self.counted(source));
        lines
    }

    /// The places that the schema sheet does not keep either, nor the text written from it: enumerations beside other facets and maxOccurs 0 stand
    /// there as the schema has them.
    #[must_use]
    pub fn of_sheet(mut self) -> NotKept<'d> {
        let kept = |kind| matches!(kind, Kind::Enumeration | Kind::MaxOccursZero);
        self.places.retain(|place| !kept(place.kind));
        self
    }

    /// How many there are of each kind.
    pub fn counted(&self, source: &Source) -> String {
        format!(
            "{}: {}: {}",
            named(source.path()),
            told(self.places.len()),
            self.by_kind()
        )
    }

    /// `2 element, 1 facet`
    pub fn by_kind(&self) -> String {
        let mut counts: BTreeMap<&str, usize> = BTreeMap::new();
        for place in &self.places {
            *counts.entry(place.kind.name()).or_default() += 1;
        }
        let parts: Vec<String> = counts
            .iter()
            .map(|(kind, count)| format!("{count} {kind}"))
            .collect();
        parts.join(", ")
    }

    /// The places by the type's name in the graph.
    pub fn notes(&self) -> Notes<'_> {
        let mut notes: BTreeMap<String, Vec<&Place<'_>>> = BTreeMap::new();
        for place in &self.places {
            let name = place.type_name.map(normalize_type_name).unwrap_or_default();
            notes.entry(name).or_default().push(place);
        }
        Notes(notes)
    }
}

/// `2 places are not kept in the graph`
pub fn told(places: usize) -> String {
    match places {
        1 => "1 place is not kept in the graph".to_owned(),
        count => format!("{count} places are not kept in the graph"),
    }
}

impl Place<'_> {
    /// `in type "T" a choice stands ..`
    pub fn sentence(&self) -> String {
        match self.type_name {
            Some(name) => format!("in type {} {}", quoted(name), self.words),
            None => self.words.clone(),
        }
    }
}

/// What stands in comments beside types and fields.
#[derive(Clone, Debug, Default)]
pub struct Notes<'n>(BTreeMap<String, Vec<&'n Place<'n>>>);

impl Notes<'_> {
    /// The notes of a field, variant or attribute of a type of the graph.
    pub fn of_field(&self, owner: &str, field: &str) -> Vec<&str> {
        let of = |place: &&&Place<'_>| place.fields.contains(&field);
        let places = self.0.get(owner).into_iter().flatten();
        places.filter(of).map(|place| place.note.as_str()).collect()
    }

    /// The notes of a type: those about none of its `fields`.
    pub fn of_type(&self, owner: &str, fields: &[&str]) -> Vec<&str> {
        let beside = |place: &&&Place<'_>| !place.fields.iter().any(|field| fields.contains(field));
        let places = self.0.get(owner).into_iter().flatten();
        places
            .filter(beside)
            .map(|place| place.note.as_str())
            .collect()
    }
}
