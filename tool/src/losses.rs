//! What the file declares and the sheet has not kept.

use std::collections::HashMap;

use lubiksan::{Context, Kind, ReadAs, SchemaSheet};

use crate::document::Document;
use crate::failure::quoted;
use crate::reading::read_on;
use crate::source::Source;
use crate::xml::EventKind;

/// A global element or a named type of the file.
struct Item<'d> {
    event: usize,
    kind: Kind,
    name: &'d str,
    /// The direct child of the schema that it stands in, or `schema`.
    parent: &'d str,
}

/// How many global elements and named types a file has.
#[derive(Clone, Copy, Debug, Default, PartialEq, Eq)]
pub struct Counts {
    /// Global elements.
    pub elements: usize,
    /// Named types.
    pub types: usize,
}

impl Counts {
    fn of(items: &[Item<'_>]) -> Counts {
        let elements = items
            .iter()
            .filter(|item| item.kind == Kind::Element)
            .count();
        Counts {
            elements,
            types: items.len() - elements,
        }
    }
}

/// The counts of a document.
pub fn counts(document: &Document) -> Counts {
    Counts::of(&items(document))
}

/// The counts of a sheet.
pub fn kept(sheet: &SchemaSheet<'_>) -> Counts {
    let elements = sheet
        .declared()
        .filter(|declared| declared.kind == Kind::Element)
        .count();
    Counts {
        elements,
        types: sheet.declared().count() - elements,
    }
}

/// `56 types in the file, 0 kept`, for what the counts have more of.
pub fn compared(file: Counts, kept: Counts, place: &str) -> String {
    let part = |word: &str, there: usize, kept: usize| {
        let plural = if there == 1 { "" } else { "s" };
        (there > kept).then(|| format!("{there} {word}{plural} in the {place}, {kept} kept"))
    };
    let parts = [
        part("type", file.types, kept.types),
        part("element", file.elements, kept.elements),
    ];
    parts
        .into_iter()
        .flatten()
        .collect::<Vec<String>>()
        .join("; ")
}

/// A line for each way in which something was lost; the sheet is that of the whole source.
pub fn lines(source: &Source, sheet: &SchemaSheet<'_>) -> Vec<String> {
    let all = items(source.document());
    let lost = lost(&all, sheet);
    let Some(first) = lost.first() else {
        return Vec::new();
    };
    let counts = compared(
        Counts::of(&all),
        less(Counts::of(&all), Counts::of(&lost)),
        "file",
    );
    let end = lost
        .iter()
        .find_map(|item| ended_before(source, sheet.read_as(), item.event))
        .unwrap_or(usize::MAX);
    let mut lines = Vec::new();
    if first.event < end {
        lines.push(passed_over(source, &lost, end, &counts));
    }
    if let Some(event) = source.document().events().get(end) {
        let tag = quoted(source.document().local(event));
        lines.push(source.at(
            event.at,
            &format!("the schema ended here by the close of {tag}: {counts}"),
        ));
    }
    lines
}

fn less(all: Counts, lost: Counts) -> Counts {
    Counts {
        elements: all.elements - lost.elements,
        types: all.types - lost.types,
    }
}

/// What stands before the end of the schema and was not kept.
fn passed_over(source: &Source, lost: &[Item<'_>], end: usize, counts: &str) -> String {
    let before: Vec<&Item<'_>> = lost.iter().filter(|item| item.event < end).collect();
    let Some(first) = before.first() else {
        return String::new();
    };
    let (word, why) = match first.kind {
        Kind::Element => ("element", "it has no type"),
        Kind::SimpleType => ("simpleType", "it has no content"),
        Kind::ComplexType => ("complexType", "it has no content"),
    };
    let why = match first.parent {
        "schema" => why.to_owned(),
        other => format!("it stands in {}", quoted(other)),
    };
    let more = match before.len() {
        1 => String::new(),
        count => format!(", and {} more like it", count - 1),
    };
    let at = source
        .document()
        .events()
        .get(first.event)
        .map_or(0, |event| event.at);
    source.at(
        at,
        &format!(
            "{word} {} is not kept, {why}{more}: {counts}",
            quoted(first.name)
        ),
    )
}

/// The global elements and named types of a document.
fn items(document: &Document) -> Vec<Item<'_>> {
    let mut open: Vec<&str> = Vec::new();
    let mut found = Vec::new();
    for (index, event) in document.events().iter().enumerate() {
        if event.kind == EventKind::Close {
            open.pop();
            continue;
        }
        let local = document.local(event);
        if let Some(kind) = kind_of(open.last().copied(), local) {
            let name = document.attribute(event, "name").map(|(name, _)| name);
            found.extend(name.map(|name| Item {
                event: index,
                kind,
                name,
                parent: child_of_schema(&open),
            }));
        }
        if event.kind == EventKind::Start {
            open.push(local);
        }
    }
    found
}

/// Of the open tags the one directly below the outermost schema; `schema` where there is none.
fn child_of_schema<'d>(open: &[&'d str]) -> &'d str {
    let below = open.iter().skip_while(|&&tag| tag != "schema").nth(1);
    below.copied().unwrap_or("schema")
}

fn kind_of(parent: Option<&str>, local: &str) -> Option<Kind> {
    match (parent?, local) {
        ("schema", "element") => Some(Kind::Element),
        ("schema" | "redefine" | "override", "simpleType") => Some(Kind::SimpleType),
        ("schema" | "redefine" | "override", "complexType") => Some(Kind::ComplexType),
        _ => None,
    }
}

/// The items that the sheet has not.
fn lost<'d>(items: &[Item<'d>], sheet: &SchemaSheet<'_>) -> Vec<Item<'d>> {
    let mut kept: HashMap<(Kind, &str), usize> = HashMap::new();
    for declared in sheet.declared() {
        *kept.entry((declared.kind, declared.name)).or_default() += 1;
    }
    let mut lost = Vec::new();
    for item in items {
        match kept.get_mut(&(item.kind, item.name)) {
            Some(count) if *count > 0 => *count -= 1,
            _ => lost.push(Item { ..*item }),
        }
    }
    lost
}

/// The event that ended the schema before `event`; none where `event` still stands in a schema.
fn ended_before(source: &Source, read_as: ReadAs, event: usize) -> Option<usize> {
    if !is_outside(source, read_as, event) {
        return None;
    }
    let (mut inside, mut outside) = (0, event);
    while outside - inside > 1 {
        let middle = inside + (outside - inside) / 2;
        match is_outside(source, read_as, middle) {
            true => outside = middle,
            false => inside = middle,
        }
    }
    Some(outside - 1)
}

/// After `events` events a schema has been read and is left.
fn is_outside(source: &Source, read_as: ReadAs, events: usize) -> bool {
    let mut sheet = SchemaSheet::cleared(read_as);
    let read = read_on(source, &mut sheet, events, |_| Ok(()));
    read.is_ok() && sheet.root_seen() && sheet.context() == Context::Outside
}
