//! XML text into events. quick-xml cuts the text into markup; everything that XML 1.0 asks beyond that is tested here.
//! A document type is refused, as the library refuses it.

use std::collections::HashSet;
use std::ops::Range;

use quick_xml::errors::{Error as XmlError, SyntaxError};
use quick_xml::events::Event as Markup;
use quick_xml::Reader;

use crate::scan::{fault, is_character, is_space, Scan};
pub use crate::scan::{Fault, Unread};
use crate::words::quoted;

/// The kind of an event.
#[derive(Clone, Copy, Debug, PartialEq, Eq)]
pub enum EventKind {
    /// `<tag ..>`
    Start,
    /// `<tag ../>`
    Empty,
    /// `</tag>`
    Close,
}

/// An event: ranges into the text.
#[derive(Clone, Debug, PartialEq, Eq)]
pub struct Event {
    /// What it is.
    pub kind: EventKind,
    /// Where its `<` stands.
    pub at: usize,
    /// The name of the tag.
    pub name: Range<usize>,
    /// Its attributes, a range of [`Events::attributes`].
    pub attributes: Range<usize>,
}

/// An attribute: ranges into the text. The value is without its quotes.
#[derive(Clone, Debug, PartialEq, Eq)]
pub struct Attribute {
    /// The key.
    pub key: Range<usize>,
    /// The value.
    pub value: Range<usize>,
}

/// The events of a text.
#[derive(Clone, Debug, Default, PartialEq, Eq)]
pub struct Events {
    /// The events in order.
    pub events: Vec<Event>,
    /// The attributes of all events in order.
    pub attributes: Vec<Attribute>,
}

/// The events of a text.
///
/// # Errors
///
/// [`Fault`] where the text is not well formed.
pub fn events(text: &str) -> Result<Events, Fault> {
    events_by(Parser::new(text))
}

/// What is not well formed in a text, whatever its encoding is called; none where nothing is found.
pub fn fault_of(text: &str) -> Option<Fault> {
    let mut parser = Parser::new(text);
    parser.any_encoding = true;
    events_by(parser).err()
}

/// A character that XML does not allow comes before all else but a document type in front of it.
fn events_by(parser: Parser<'_>) -> Result<Events, Fault> {
    let allowed = characters(parser.text);
    let found = parser.all();
    match (&found, &allowed) {
        (Err(fault), Ok(())) if fault.is_document_type() => {}
        (Err(fault), Err(not_allowed)) if fault.is_document_type() && fault.at < not_allowed.at => {
        }
        _ => allowed?,
    }
    found
}

fn reader_of(text: &str) -> Reader<&[u8]> {
    let mut reader = Reader::from_str(text);
    let config = reader.config_mut();
    config.check_end_names = false;
    config.allow_unmatched_ends = true;
    config.allow_dangling_amp = true;
    reader
}

fn position(reader: &Reader<&[u8]>) -> usize {
    usize::try_from(reader.buffer_position()).unwrap_or(usize::MAX)
}

/// Every character is one that XML allows. Only control bytes and the byte that U+FFFE and U+FFFF start with are looked
/// at closely.
fn characters(text: &str) -> Result<(), Fault> {
    let suspect =
        |&byte: &u8| byte == 0xEF || byte < b' ' && !matches!(byte, b'\t' | b'\n' | b'\r');
    if !text.as_bytes().iter().any(suspect) {
        return Ok(());
    }
    match text.char_indices().find(|&(_, c)| !is_character(c)) {
        None => Ok(()),
        Some((at, c)) => {
            let words = format!("the character U+{:04X} is not allowed in XML", u32::from(c));
            fault(at, words)
        }
    }
}

/// What quick-xml refuses, in words.
fn of_quick_xml(error: &XmlError, at: usize) -> Fault {
    let words = match error {
        XmlError::Syntax(SyntaxError::UnclosedTag) => "the file ends inside a tag".to_owned(),
        XmlError::Syntax(SyntaxError::UnclosedComment) => {
            "the file ends inside a comment".to_owned()
        }
        XmlError::Syntax(SyntaxError::UnclosedCData) => {
            "the file ends inside a CDATA section".to_owned()
        }
        XmlError::Syntax(SyntaxError::UnclosedDoctype) => {
            "the file ends inside a document type".to_owned()
        }
        XmlError::Syntax(SyntaxError::UnclosedPIOrXmlDecl) => {
            "the file ends inside a processing instruction".to_owned()
        }
        other => format!("not well formed: {other}"),
    };
    Fault {
        at,
        cause: Unread::Malformed,
        words,
    }
}

struct Parser<'t> {
    text: &'t str,
    found: Events,
    /// The starts that are open, as places in `found.events`.
    open: Vec<usize>,
    root: bool,
    /// The name of the encoding is not looked up.
    any_encoding: bool,
}

impl<'t> Parser<'t> {
    fn new(text: &'t str) -> Parser<'t> {
        Parser {
            text,
            found: Events::default(),
            open: Vec::new(),
            root: false,
            any_encoding: false,
        }
    }

    /// The events of all markup.
    fn all(mut self) -> Result<Events, Fault> {
        let mut reader = reader_of(self.text);
        loop {
            let from = position(&reader);
            if self.part(&(from..self.text.len())).starts_with("<!DOCTYPE") {
                return self.document_type(from);
            }
            let markup = reader
                .read_event()
                .map_err(|error| of_quick_xml(&error, from))?;
            if matches!(markup, Markup::Eof) {
                return self.end();
            }
            self.markup(&markup, from..position(&reader))?;
        }
    }

    fn markup(&mut self, markup: &Markup<'_>, span: Range<usize>) -> Result<(), Fault> {
        let at = span.start;
        match markup {
            Markup::Start(_) => self.tag(EventKind::Start, at, at + 1..span.end.saturating_sub(1)),
            Markup::Empty(_) => self.tag(EventKind::Empty, at, at + 1..span.end.saturating_sub(2)),
            Markup::End(_) => self.close(at, at + 2..span.end.saturating_sub(1)),
            Markup::Text(_) => self.characters(span),
            Markup::GeneralRef(_) => self.reference(at),
            Markup::CData(_) => self.inside(at, "a CDATA section"),
            Markup::Comment(_) => comment(self.part(&span), at),
            Markup::Decl(_) => self.declaration(span),
            Markup::PI(_) => self.instruction(span),
            Markup::DocType(_) => fault(at, "a document type is written <!DOCTYPE"),
            Markup::Eof => Ok(()),
        }
    }

    fn part(&self, span: &Range<usize>) -> &'t str {
        self.text.get(span.clone()).unwrap_or_default()
    }

    fn tag(&mut self, kind: EventKind, at: usize, inside: Range<usize>) -> Result<(), Fault> {
        if self.open.is_empty() && self.root {
            return fault(at, "a second root element");
        }
        self.root = true;
        let mut scan = Scan::new(self.text, inside);
        let name = scan.name("a tag has no name")?;
        let first = self.found.attributes.len();
        while let Some(attribute) = scan.attribute()? {
            self.found.attributes.push(attribute);
        }
        self.unique(first)?;
        if kind == EventKind::Start {
            self.open.push(self.found.events.len());
        }
        let attributes = first..self.found.attributes.len();
        self.found.events.push(Event {
            kind,
            at,
            name,
            attributes,
        });
        Ok(())
    }

    /// The keys of the attributes from `first` on differ.
    fn unique(&self, first: usize) -> Result<(), Fault> {
        let attributes = self.found.attributes.get(first..).unwrap_or_default();
        let key = |attribute: &Attribute| self.part(&attribute.key);
        let mut seen = HashSet::new();
        for (index, attribute) in attributes.iter().enumerate() {
            let word = key(attribute);
            // A few keys are compared faster than they are hashed.
            let twice = match attributes.len() {
                0..=8 => attributes
                    .iter()
                    .take(index)
                    .any(|other| key(other) == word),
                _ => !seen.insert(word),
            };
            if twice {
                let words = format!("the attribute {} stands there twice", quoted(word));
                return fault(attribute.key.start, words);
            }
        }
        Ok(())
    }

    fn close(&mut self, at: usize, inside: Range<usize>) -> Result<(), Fault> {
        let mut scan = Scan::new(self.text, inside);
        let name = scan.name("a close has no name")?;
        scan.spaces();
        scan.done("a close has more than a name")?;
        let closed = self.part(&name);
        let Some(open) = self.open.pop().and_then(|open| self.found.events.get(open)) else {
            return fault(
                at,
                format!("the close of \"{closed}\" where no tag is open"),
            );
        };
        let opened = self.part(&open.name);
        if opened != closed {
            let line = line_of(self.text, open.at);
            return fault(
                at,
                format!("the close of \"{closed}\" where \"{opened}\" of line {line} is open"),
            );
        }
        self.found.events.push(Event {
            kind: EventKind::Close,
            at,
            name,
            attributes: 0..0,
        });
        Ok(())
    }

    fn characters(&mut self, span: Range<usize>) -> Result<(), Fault> {
        let text = self.part(&span);
        if self.open.is_empty() {
            return match text.find(|c: char| !is_space(c)) {
                Some(found) => fault(span.start + found, "text outside the root element"),
                None => Ok(()),
            };
        }
        if let Some(found) = text.find("]]>") {
            return fault(span.start + found, "\"]]>\" in text");
        }
        match text.find('&') {
            Some(found) => self.reference(span.start + found),
            None => Ok(()),
        }
    }

    fn inside(&self, at: usize, what: &str) -> Result<(), Fault> {
        if self.open.is_empty() {
            return fault(at, format!("{what} outside the root element"));
        }
        Ok(())
    }

    fn reference(&self, at: usize) -> Result<(), Fault> {
        self.inside(at, "a reference")?;
        let mut scan = Scan::new(self.text, at + 1..self.text.len());
        scan.reference(at)
    }

    /// `<?xml ..?>`
    fn declaration(&mut self, span: Range<usize>) -> Result<(), Fault> {
        let at = span.start;
        if at > 0 {
            return fault(at, "the XML declaration is not at the start of the file");
        }
        let mut scan = Scan::new(self.text, at + 5..span.end.saturating_sub(2));
        let mut known = ["version", "encoding", "standalone"].iter();
        let mut first = true;
        while let Some(attribute) = scan.attribute()? {
            let (key, value) = (self.part(&attribute.key), self.part(&attribute.value));
            if first && key != "version" || !known.any(|&word| word == key) {
                return fault(
                    attribute.key.start,
                    format!("\"{key}\" in the XML declaration"),
                );
            }
            first = false;
            if !(self.any_encoding && key == "encoding" && is_encoding(value)) {
                declared(key, value, attribute.value.start)?;
            }
        }
        if first {
            return fault(at, "the XML declaration has no version");
        }
        Ok(())
    }

    /// `<?target ..?>`
    fn instruction(&self, span: Range<usize>) -> Result<(), Fault> {
        let at = span.start;
        let mut scan = Scan::new(self.text, at + 2..span.end.saturating_sub(2));
        let name = scan.name("a processing instruction has no name")?;
        if self.part(&name).eq_ignore_ascii_case("xml") {
            return fault(at, "a processing instruction is named \"xml\"");
        }
        if !scan.spaces() {
            scan.done("a processing instruction's name holds a character that no name may")?;
        }
        Ok(())
    }

    /// A document type is not read; behind the root element it is not even well formed.
    fn document_type(&self, at: usize) -> Result<Events, Fault> {
        if self.root {
            return fault(at, "a document type behind the root element");
        }
        Err(Fault {
            at,
            cause: Unread::DocumentType,
            words: "a document type is not read".to_owned(),
        })
    }

    /// The file ends: one root element, and nothing is open.
    fn end(self) -> Result<Events, Fault> {
        let last = self.text.len();
        if let Some(open) = self
            .open
            .last()
            .and_then(|&open| self.found.events.get(open))
        {
            let (name, line) = (self.part(&open.name), line_of(self.text, open.at));
            return fault(
                last,
                format!("the file ends, and \"{name}\" of line {line} is not closed"),
            );
        }
        if !self.root {
            return fault(last, "the file has no root element");
        }
        Ok(self.found)
    }
}

/// A letter, then letters, digits, `.`, `_` and `-`.
fn is_encoding(name: &str) -> bool {
    let goes_on = |b: u8| b.is_ascii_alphanumeric() || matches!(b, b'.' | b'_' | b'-');
    name.starts_with(|c: char| c.is_ascii_alphabetic()) && name.bytes().all(goes_on)
}

/// A file in another encoding, and what to do about it.
fn not_utf_8(name: &str) -> String {
    let words = format!("the encoding {} is not read, only UTF-8", quoted(name));
    match is_encoding(name) {
        true => format!("{words}; {}", write_anew(name)),
        false => words,
    }
}

/// What to do with a file in another encoding.
pub(crate) fn write_anew(name: &str) -> String {
    format!("write the file anew by `iconv -f {name} -t UTF-8` and have its first line say UTF-8")
}

/// What the XML declaration of a text says of its encoding, where that is not UTF-8.
pub(crate) fn encoding_fault(text: &str) -> Option<Fault> {
    let inside = text.strip_prefix("<?xml")?.split_once("?>")?.0.len();
    let mut scan = Scan::new(text, 5..5 + inside);
    while let Some(attribute) = scan.attribute().ok()? {
        let part = |range: &Range<usize>| text.get(range.clone()).unwrap_or_default();
        if part(&attribute.key) == "encoding" {
            return declared("encoding", part(&attribute.value), attribute.value.start).err();
        }
    }
    None
}

/// The value of a word of the XML declaration.
fn declared(key: &str, value: &str, at: usize) -> Result<(), Fault> {
    let digits = |text: &str| !text.is_empty() && text.bytes().all(|b| b.is_ascii_digit());
    let good = match key {
        "version" => value.strip_prefix("1.").is_some_and(digits),
        "standalone" => matches!(value, "yes" | "no"),
        _ => {
            let utf8 = ["utf-8", "utf8"]
                .iter()
                .any(|word| value.eq_ignore_ascii_case(word));
            return match utf8 {
                true => Ok(()),
                false => Err(Fault {
                    at,
                    cause: Unread::Encoding,
                    words: not_utf_8(value),
                }),
            };
        }
    };
    match good {
        true => Ok(()),
        false => fault(at, format!("{key} \"{value}\" in the XML declaration")),
    }
}

/// `<!--..-->` has no `--` inside.
fn comment(text: &str, at: usize) -> Result<(), Fault> {
    let inside = text
        .get(4..text.len().saturating_sub(3))
        .unwrap_or_default();
    if inside.contains("--") || inside.ends_with('-') {
        return fault(at, "\"--\" in a comment");
    }
    Ok(())
}

/// Line and column of a byte of the text, both from 1; columns count characters.
pub fn line_and_column(text: &str, at: usize) -> (usize, usize) {
    let before = text.get(..at).unwrap_or(text);
    let (mut line, mut column) = (1, 1);
    let mut characters = before
        .chars()
        .chain(text.get(at..).unwrap_or_default().chars().take(1))
        .peekable();
    for _ in before.chars() {
        let (c, next) = (characters.next(), characters.peek());
        let breaks = c == Some('\n') || c == Some('\r') && next != Some(&'\n');
        if breaks {
            line += 1;
            column = 1;
        } else {
            column += 1;
        }
    }
    (line, column)
}

/// The lines of a text, to find that of many bytes.
#[derive(Clone, Debug)]
pub struct Lines(Vec<usize>);

impl Lines {
    /// Where the lines of the text start.
    pub fn of(text: &str) -> Lines {
        let bytes = text.as_bytes();
        let breaks = |at: usize| match bytes.get(at) {
            Some(b'\n') => true,
            Some(b'\r') => bytes.get(at + 1) != Some(&b'\n'),
            _ => false,
        };
        Lines(
            (0..bytes.len())
                .filter(|&at| breaks(at))
                .map(|at| at + 1)
                .collect(),
        )
    }

    /// The line of a byte, from 1.
    pub fn line(&self, at: usize) -> usize {
        1 + self.0.partition_point(|&start| start <= at)
    }

    /// Line and column of a byte of the same text, both from 1, as [`line_and_column`] gives them.
    pub fn line_and_column(&self, text: &str, at: usize) -> (usize, usize) {
        let line = self.line(at);
        let start = line.checked_sub(2).and_then(|line| self.0.get(line));
        let before = text.get(start.copied().unwrap_or(0)..at);
        (line, 1 + before.unwrap_or_default().chars().count())
    }
}

fn line_of(text: &str, at: usize) -> usize {
    line_and_column(text, at).0
}
