//! Order 3 anew, over the tree of the tags and not over the nesting of row 0: under choice 1 a document's heads are the direct children
//! of its outermost `schema` tags.

use crate::leaves::local_name;
use crate::tape::{Event, Tag};

/// What a head declares.
#[derive(Clone, Copy, Debug, PartialEq, Eq)]
pub enum Kind {
    Element,
    SimpleType,
    ComplexType,
}

/// A tag of the document, the number of its event, the path of the tags around it, from the outermost on.
struct Placed<'e> {
    event: u32,
    path: Vec<&'e str>,
    tag: &'e Tag,
    started: bool,
}

/// The heads that the document declares, each with the number of its event: its elements with name and type and its named types, in order.
pub fn declared(events: &[Event]) -> Vec<(Kind, String, u32)> {
    let found = placed(events);
    let heads = found.iter().filter(|it| is_direct_child(&it.path));
    heads.filter_map(head).collect()
}

/// Every tag with its path.
fn placed(events: &[Event]) -> Vec<Placed<'_>> {
    let mut path: Vec<&str> = Vec::new();
    let mut all = Vec::new();
    for (number, event) in (0..).zip(events) {
        let (tag, started) = match event {
            Event::Start(tag) => (tag, true),
            Event::Empty(tag) => (tag, false),
            Event::Close => {
                path.pop();
                continue;
            }
        };
        all.push(Placed {
            event: number,
            path: path.clone(),
            tag,
            started,
        });
        if started {
            path.push(local_name(&tag.name));
        }
    }
    all
}

/// The first `schema` on the path is its last tag.
fn is_direct_child(path: &[&str]) -> bool {
    let outermost = path.iter().position(|&name| name == "schema");
    outermost.is_some_and(|at| at + 1 == path.len())
}

/// The head that a direct child becomes.
fn head(it: &Placed<'_>) -> Option<(Kind, String, u32)> {
    let value = |word: &str| {
        let mut keyed = it.tag.attributes.iter();
        let found = keyed.find(|(key, _)| local_name(key) == word);
        found.map(|(_, value)| value.clone())
    };
    let (kind, name) = match local_name(&it.tag.name) {
        "element" => (Kind::Element, value("type").and(value("name"))),
        "simpleType" if it.started => (Kind::SimpleType, value("name")),
        "complexType" if it.started => (Kind::ComplexType, value("name")),
        _ => return None,
    };
    name.map(|name| (kind, name, it.event))
}
