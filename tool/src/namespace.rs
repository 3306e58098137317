//! Of which namespace the schema is.

use crate::document::Document;
use crate::failure::quoted;
use crate::source::Source;
use crate::xml::{Event, EventKind};

const XML_SCHEMA: &str = "http://www.w3.org/2001/XMLSchema";

/// A warning where the first `schema` of a file is of another namespace than XML Schema's. One without a namespace is read without a
/// word: the library goes by names alone.
pub fn warning(source: &Source) -> Option<String> {
    let (at, namespace) = of_schema(source.document())?;
    let other = (namespace != XML_SCHEMA).then_some(namespace)?;
    let words = format!(
        "the schema is of the namespace {}, not of XML Schema's, {}; it is read as if it were",
        quoted(other),
        quoted(XML_SCHEMA)
    );
    Some(source.at(at, &words))
}

/// Where the first `schema` stands, and its namespace.
fn of_schema(document: &Document) -> Option<(usize, &str)> {
    let mut open: Vec<&Event> = Vec::new();
    for event in document.events() {
        if event.kind == EventKind::Close {
            open.pop();
            continue;
        }
        open.push(event);
        if document.local(event) == "schema" {
            return Some((event.at, declared(document, &open)?));
        }
        if event.kind == EventKind::Empty {
            open.pop();
        }
    }
    None
}

/// The namespace of the prefix of the innermost tag, declared by it or by one around it.
fn declared<'d>(document: &'d Document, open: &[&Event]) -> Option<&'d str> {
    let name = document.name(open.last()?);
    let key = match name.rsplit_once(':') {
        Some((prefix, _)) => format!("xmlns:{prefix}"),
        None => "xmlns".to_owned(),
    };
    let of_tag = |event: &&Event| {
        let mut attributes = document.attributes(event);
        let found = attributes.find(|(found, _, _)| *found == key);
        found.map(|(_, value, _)| value)
    };
    let namespace = open.iter().rev().find_map(of_tag)?;
    (!namespace.is_empty()).then_some(namespace)
}
