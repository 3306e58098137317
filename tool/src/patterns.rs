//! The patterns of a schema, each judged by the library.

use lubiksan::{Facet, Graph, Pattern, PatternFacet, SchemaSheet, TypeDef, Unjudged};

use crate::failure::quoted;
use crate::places::Places;
use crate::source::Source;

/// A pattern with its verdict.
#[derive(Clone, Copy, Debug, PartialEq, Eq)]
pub struct Judged<'s> {
    /// Where it stands in the sheet.
    pub facet: PatternFacet<'s>,
    /// What the library says of it.
    pub verdict: Result<Pattern, Unjudged>,
}

/// The patterns of a sheet.
pub fn of<'s>(sheet: &'s SchemaSheet<'_>) -> Vec<Judged<'s>> {
    sheet.patterns().map(Judged::of).collect()
}

/// The patterns of a graph alone: types under the names that they have there, and no rows.
pub fn of_graph<'g>(graph: &'g Graph<'_>) -> Vec<Judged<'g>> {
    let of_type = |found| match found {
        TypeDef::Newtype(newtype) => Some(newtype),
        _ => None,
    };
    let mut judged = Vec::new();
    for newtype in graph.types().filter_map(of_type) {
        for facet in newtype.facets() {
            if let Facet::Pattern(value) = facet {
                judged.push(Judged::of(PatternFacet {
                    type_name: newtype.name(),
                    value,
                    row: 0,
                }));
            }
        }
    }
    judged
}

impl<'s> Judged<'s> {
    fn of(facet: PatternFacet<'s>) -> Judged<'s> {
        Judged {
            facet,
            verdict: Pattern::judged(facet.value),
        }
    }

    /// No derivation exists.
    pub fn is_refused(&self) -> bool {
        self.verdict == Ok(Pattern::NotDerived)
    }

    /// `in type "T" the pattern "[A-Z": not a regular expression of XML Schema`
    fn words(&self) -> String {
        let verdict = match self.verdict {
            Ok(pattern) => pattern.to_string(),
            Err(unjudged) => unjudged.to_string(),
        };
        let (name, value) = (quoted(self.facet.type_name), quoted(self.facet.value));
        format!("in type {name} the pattern {value}: {verdict}")
    }
}

/// A line for each pattern, behind the place of its tag where source and sheet are at hand, else behind `file`.
pub fn lines(
    judged: &[Judged<'_>],
    sheet: Option<&SchemaSheet<'_>>,
    (file, source): (&str, Option<&Source>),
) -> Vec<String> {
    let read = source.zip(sheet);
    let located = read.map(|(source, sheet)| (source, Places::of(source, sheet)));
    let line = |judged: &Judged<'_>| {
        let words = judged.words();
        let at = located
            .as_ref()
            .and_then(|(source, places)| Some(source.at(places.of_row(judged.facet.row)?, &words)));
        at.unwrap_or_else(|| format!("{file}: {words}"))
    };
    judged.iter().map(line).collect()
}

/// What a comment at a type of the graph says of its patterns that are refused.
pub fn notes(found: &TypeDef<'_>) -> Vec<String> {
    let TypeDef::Newtype(newtype) = found else {
        return Vec::new();
    };
    let note = |facet| match facet {
        Facet::Pattern(value) if Pattern::judged(value) == Ok(Pattern::NotDerived) => Some(
            format!("the pattern {} is {}", quoted(value), Pattern::NotDerived),
        ),
        _ => None,
    };
    newtype.facets().filter_map(note).collect()
}
