//! The schema written back: the library's text, the same text indented, and what of the schema is not in it.

use std::path::Path;

use lubiksan::{Context, SchemaSheet};

use crate::explain;
use crate::failure::{named, quoted, Failure};
use crate::notkept::NotKept;
use crate::source::Source;
use crate::stored::About;

/// What stands before a tag, once for each tag that is open.
const INDENT: &str = "  ";
/// What stands before the value of the last attribute of the first tag.
const TARGET: &str = " targetNamespace=";

/// The library's text of a sheet. `file` names it, `source` is there where what it was read from is at hand.
///
/// # Errors
///
/// [`Failure::Refused`] in words.
pub fn text(
    file: &Path,
    source: Option<&Source>,
    sheet: &SchemaSheet<'_>,
) -> Result<String, Failure> {
    let written = sheet.to_xsd();
    written.map_err(|refusal| explain::writing(file, source, sheet, &refusal))
}

/// The text with what every schema of ISO 20022 has and no sheet keeps: the target namespace as the default one, so that types named without a
/// prefix are found, and qualified elements. The library's reader passes over both.
///
/// ```
/// let text = "<xs:schema targetNamespace='n'></xs:schema>";
/// let made = "<xs:schema xmlns='n' elementFormDefault=\"qualified\" targetNamespace='n'></xs:schema>";
/// assert_eq!(lubiksan_tool::writing::for_iso20022(text), made);
/// ```
pub fn for_iso20022(text: &str) -> String {
    let first = tag_end(text).and_then(|end| text.get(..end - 1));
    let parts = first.and_then(|tag| tag.split_once(TARGET));
    match parts {
        Some((before, value)) => {
            let behind = text.get(before.len()..).unwrap_or_default();
            format!("{before} xmlns={value} elementFormDefault=\"qualified\"{behind}")
        }
        None => text.to_owned(),
    }
}

/// The text with each tag on a line of its own, indented by the tags that are open; a start tag and its end with nothing between them stay on
/// one line. Nothing changes inside of tags, so that it says the same.
///
/// ```
/// let text = "<a><b c=\"d>e\"/><f></f></a>";
/// assert_eq!(lubiksan_tool::writing::indented(text), "<a>\n  <b c=\"d>e\"/>\n  <f></f>\n</a>\n");
/// ```
pub fn indented(text: &str) -> String {
    let mut lines = String::with_capacity(2 * text.len());
    let (mut open, mut started) = (0usize, false);
    for tag in tags(text) {
        let ends = tag.starts_with("</");
        open = open.saturating_sub(usize::from(ends));
        if !(ends && started) {
            if !lines.is_empty() {
                lines.push('\n');
            }
            (0..open).for_each(|_| lines.push_str(INDENT));
        }
        lines.push_str(tag);
        started = !ends && !tag.ends_with("/>");
        open += usize::from(started);
    }
    lines.push('\n');
    lines
}

/// The tags of a text that is nothing but tags.
fn tags(mut text: &str) -> impl Iterator<Item = &str> {
    std::iter::from_fn(move || {
        let (tag, rest) = text.split_at_checked(tag_end(text)?)?;
        text = rest;
        Some(tag)
    })
}

/// Where the first tag ends: behind the first `>` that stands in no quotes.
fn tag_end(text: &str) -> Option<usize> {
    let mut quote = None;
    for (at, byte) in text.bytes().enumerate() {
        match (quote, byte) {
            (None, b'>') => return Some(at + 1),
            (None, b'"' | b'\'') => quote = Some(byte),
            (Some(open), byte) if open == byte => quote = None,
            _ => {}
        }
    }
    None
}

/// What of a source is not in the text of its sheet, in one line; nothing where all is.
pub fn not_kept(source: &Source, sheet: &SchemaSheet<'_>) -> Option<String> {
    let not_kept = NotKept::of(source, sheet).of_sheet();
    let count = not_kept.places.len();
    let line = || {
        format!(
            "{}: {}: {}",
            named(source.path()),
            told(count),
            not_kept.by_kind()
        )
    };
    (count > 0).then(line)
}

/// `2 places of the schema are not in the text`
fn told(places: usize) -> String {
    match places {
        1 => "1 place of the schema is not in the text".to_owned(),
        count => format!("{count} places of the schema are not in the text"),
    }
}

/// The same where the source of a stored sheet is not at hand: the sheet knows how many places the graph does not keep, which are at least these.
pub fn unnamed(file: &Path, about: Option<&About>) -> Option<String> {
    let why = "its source is not there as it was";
    let words = match about?.not_kept {
        Some(0) => return None,
        Some(count) => format!("up to {}, and {why}", told(count as usize)),
        None => format!("what of the schema is not in the text is not known, {why}"),
    };
    Some(format!("{}: {words}", named(file)))
}

/// That a type is still open, and so not in the text.
pub fn open_type(file: &Path, sheet: &SchemaSheet<'_>) -> Option<String> {
    let open = matches!(sheet.context(), Context::SimpleType | Context::ComplexType);
    let last = sheet.declared().last().filter(|_| open)?;
    Some(format!(
        "{}: type {} is not read to its end and not in the text",
        named(file),
        quoted(last.name)
    ))
}
