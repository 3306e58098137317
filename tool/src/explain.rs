//! A refusal of the library in words, with the place in the file.

use std::path::Path;

use lubiksan::names::parse_u32;
use lubiksan::{limits, Declared, Kind, Refusal, SchemaSheet, TypeAt};

use crate::document::Document;
use crate::failure::{named, quoted, Failure};
use crate::origins::named_at;
use crate::source::Source;
use crate::xml::Event;

/// A refused reading.
pub fn reading(source: &Source, refusal: &Refusal) -> Failure {
    let (number, document) = (refusal.number(), source.document());
    let found = refusal
        .event()
        .and_then(|index| Some((index, document.events().get(index)?)));
    let Some((index, event)) = found else {
        let lines = format!("read {number} {}\n", refusal.place());
        return Failure::Answered {
            lines,
            words: format!("{}: {refusal}", named(source.path())),
        };
    };
    let (at, words) = event_words(document, event, refusal);
    let words = source.at(
        at,
        &format!("{words} (refused with {number}, event {index})"),
    );
    Failure::Answered {
        lines: format!("read {number} {index}\n"),
        words,
    }
}

/// Where an event is refused and why.
fn event_words(document: &Document, event: &Event, refusal: &Refusal) -> (usize, String) {
    let tag = quoted(document.name(event));
    let words = match refusal {
        Refusal::Record(_) => {
            let (count, most) = (document.attributes(event).count(), limits::ATTRIBUTES);
            format!("the tag {tag} has {count} attributes, more than {most}")
        }
        Refusal::Byte(_) => not_taken(document, event),
        Refusal::TooDeep(_) => format!(
            "the tag {tag} stands inside {} others, the most that may be open",
            255
        ),
        Refusal::TooManyEvents(_) => {
            format!("the tag {tag} stands behind 1,000,000 events, the most that are read")
        }
        Refusal::MissingAttribute(_) => format!("{} has no name", document.local(event)),
        Refusal::InvalidValue(_) => return bad_number(document, event),
        Refusal::NoRoom(_) => {
            format!("no room for the tag {tag}: a schema sheet has 4,096 rows and 65,536 bytes of names")
        }
        other => format!("the tag {tag} is refused: {other}"),
    };
    (event.at, words)
}

/// What of a tag has a character that is not taken.
fn not_taken(document: &Document, event: &Event) -> String {
    let has = |text: &str| text.chars().any(|c| c > '\u{17F}');
    let words =
        |what: &str, text: &str| format!("{what} {} has a character above U+017F", quoted(text));
    let name = document.name(event);
    if has(name) {
        return words("the tag name", name);
    }
    for (key, value, _) in document.attributes(event) {
        if has(key) {
            return words("the attribute name", key);
        }
        if has(value) {
            return words(key, value);
        }
    }
    words("the tag", name)
}

/// Which number of a tag is wrong: minOccurs before maxOccurs, or a facet's value.
fn bad_number(document: &Document, event: &Event) -> (usize, String) {
    let tag = document.local(event);
    let occurs = |word| document.attribute(event, word);
    let (word, found) = match (tag, occurs("minOccurs")) {
        ("element", Some(min)) if parse_u32(min.0).is_none() => ("minOccurs", Some(min)),
        ("element", _) => ("maxOccurs", occurs("maxOccurs")),
        _ => (tag, document.attribute(event, "value")),
    };
    match found {
        None => (event.at, format!("{word} has no value")),
        Some((value, at)) => (
            at,
            format!("{word} {} {}", quoted(value), why_no_number(word, value)),
        ),
    }
}

fn why_no_number(word: &str, value: &str) -> String {
    let value = value.trim_matches([' ', '\t', '\n', '\r']);
    let is_numeral = |text: &str| !text.is_empty() && text.bytes().all(|b| b.is_ascii_digit());
    if value.strip_prefix('-').is_some_and(is_numeral) {
        return "is below 0".to_owned();
    }
    if !is_numeral(value.strip_prefix('+').unwrap_or(value)) {
        return "is not a number".to_owned();
    }
    match word {
        "minLength" | "maxLength" => format!("is above {}", u64::MAX),
        _ => format!("is above {}", u32::MAX),
    }
}

/// A refused lowering.
pub fn lowering(
    file: &Path,
    source: Option<&Source>,
    sheet: &SchemaSheet<'_>,
    refusal: &Refusal,
) -> Failure {
    let (number, place) = (refusal.number(), refusal.place());
    let lines = format!("read 0 {}\nlower {number} {place}\n", sheet.events_done());
    let name = named(file);
    let words = match refusal {
        Refusal::NoRoot => format!("{name}: there is no schema element (refused with {number})"),
        Refusal::GraphRoom => format!(
            "{name}: the graph needs more than 4,096 rows or 65,536 bytes of names (refused with {number})"
        ),
        Refusal::UnknownBase { row } => unknown_base(file, source, sheet, *row),
        Refusal::RepeatedName { again, first } => repeated_name(file, source, sheet, again, first),
        other => format!("{name}: {other}"),
    };
    Failure::Answered { lines, words }
}

/// A refused writing.
pub fn writing(
    file: &Path,
    source: Option<&Source>,
    sheet: &SchemaSheet<'_>,
    refusal: &Refusal,
) -> Failure {
    let (name, number) = (named(file), refusal.number());
    Failure::Refused(match refusal {
        Refusal::NoRoot => format!("{name}: there is no schema element (refused with {number})"),
        Refusal::TextRoom => format!(
            "{name}: the schema written back takes more than {} bytes (refused with {number})",
            limits::TEXT
        ),
        Refusal::NoValue { row } => no_value(file, source, sheet, *row),
        other => format!("{name}: {other}"),
    })
}

/// 22 names the element or type with its line where the file is at hand, and the texts of the row.
fn no_value(file: &Path, source: Option<&Source>, sheet: &SchemaSheet<'_>, row: usize) -> String {
    let head = sheet.declared().filter(|found| found.row <= row).last();
    let owner = match head {
        None => "the namespace".to_owned(),
        Some(head) if head.kind == Kind::Element => format!("element {}", quoted(head.name)),
        Some(head) => format!("type {}", quoted(head.name)),
    };
    let texts: Vec<String> = sheet.texts(row).map(quoted).collect();
    let words = format!(
        "{owner}: XML can't hold {} as it is: a \"<\", both quotes, a control character or an \"&\" without a reference (refused with 22, row {row})",
        texts.join(" or ")
    );
    let known = head.and_then(|head| located(source, sheet, head.row));
    match known {
        Some((source, at)) => source.at(at, &words),
        None => format!("{}: {words}", named(file)),
    }
}

/// 13 names the type, and its line where the file is at hand.
fn unknown_base(
    file: &Path,
    source: Option<&Source>,
    sheet: &SchemaSheet<'_>,
    row: usize,
) -> String {
    let found = declared_in(sheet, row);
    let (name, base) = found.map_or(("", ""), |declared| (declared.name, declared.second));
    let words = match base {
        "" => format!("simpleType {} has no base (refused with 13)", quoted(name)),
        _ => format!(
            "simpleType {} has the base {}, which is not built in (refused with 13)",
            quoted(name),
            quoted(base)
        ),
    };
    match located(source, sheet, row) {
        Some((source, at)) => source.at(at, &words),
        None => format!("{}: {words}", named(file)),
    }
}

/// 20 names both types, and their lines where the file is at hand.
fn repeated_name(
    file: &Path,
    source: Option<&Source>,
    sheet: &SchemaSheet<'_>,
    again: &TypeAt,
    first: &TypeAt,
) -> String {
    let line = located(source, sheet, first.row).map_or(String::new(), |(source, at)| {
        format!(" in line {}", source.line(at))
    });
    let words = format!(
        "type {} has the same Rust name as {}{line} (refused with 20)",
        quoted(&again.name),
        quoted(&first.name)
    );
    match located(source, sheet, again.row) {
        Some((source, at)) => source.at(at, &words),
        None => format!("{}: {words}", named(file)),
    }
}

/// The element or type of a row.
fn declared_in<'s>(sheet: &'s SchemaSheet<'_>, row: usize) -> Option<Declared<'s>> {
    sheet.declared().find(|declared| declared.row == row)
}

/// The source, where it is at hand, and where in it the tag stands that gave the type of a row its name.
fn located<'s>(
    source: Option<&'s Source>,
    sheet: &SchemaSheet<'_>,
    row: usize,
) -> Option<(&'s Source, usize)> {
    Some((source?, named_at(source?, sheet, row)?))
}
