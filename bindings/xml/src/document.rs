//! The events of an XML text and the pieces that they make.

use std::borrow::Cow;
use std::error::Error;
use std::fmt;

use lubiksan::names::local_name;
use lubiksan::{NoTape, PieceFull, TapeBuilder};

use crate::taped::{document_type, Taped};
use crate::xml::{self, Event, EventKind, Events, Fault, Unread};

/// The bytes that a file in UTF-8 may start with.
pub const BYTE_ORDER_MARK: &[u8] = b"\xEF\xBB\xBF";

/// An XML text with its events.
#[derive(Clone, Debug)]
pub struct Document {
    text: String,
    found: Events,
    way: Way,
}

/// Who read the text.
#[derive(Clone, Debug)]
pub enum Way {
    /// The library, into a tape.
    Library(Taped),
    /// This program by quick-xml, since the library writes no tape of it.
    QuickXml(NoTape),
}

/// Some events as a tape.
#[derive(Clone, Debug)]
pub struct Piece<'d> {
    /// The text of the tape.
    pub text: Cow<'d, [u8]>,
    /// The marks into it.
    pub marks: Cow<'d, [u32]>,
    /// How many events it has.
    pub events: usize,
}

/// Why the bytes of a file are no document.
#[derive(Clone, Debug, PartialEq, Eq)]
pub struct NoDocument {
    /// What is wrong.
    pub cause: Unread,
    /// The same in words, with the library's number where it refuses.
    pub words: String,
    /// The text, as far as it is one, and the byte where it is wrong; none where that is not known.
    pub place: Option<(String, usize)>,
}

impl fmt::Display for NoDocument {
    fn fmt(&self, f: &mut fmt::Formatter<'_>) -> fmt::Result {
        f.write_str(&self.words)
    }
}

impl Error for NoDocument {}

impl NoDocument {
    fn at(text: String, fault: Fault) -> NoDocument {
        let Fault { at, cause, words } = fault;
        let place = Some((text, at));
        NoDocument {
            cause,
            words,
            place,
        }
    }

    /// The same with the library's number behind the words.
    fn refused_with(mut self, number: u32) -> NoDocument {
        self.words += &format!(" (refused with {number})");
        self
    }
}

impl Document {
    /// The document of the bytes of a file: read by the library where it writes a tape of them, else by quick-xml.
    ///
    /// # Errors
    ///
    /// [`NoDocument`] where the bytes are no well-formed XML in UTF-8, or have a document type.
    pub fn of(bytes: Vec<u8>) -> Result<Document, NoDocument> {
        match Taped::of(&bytes) {
            Ok((tape, found)) => Document::by_library(decoded(bytes)?, found, tape),
            Err(NoTape::Malformed) => Err(malformed(decoded(bytes))),
            Err(NoTape::Doctype) => Err(with_document_type(decoded(bytes)?)),
            Err(why) => Document::by_quick_xml(decoded(bytes)?, why),
        }
    }

    /// The library does not look up the name of the encoding; letters outside ASCII mean others under another one.
    fn by_library(text: String, found: Events, tape: Taped) -> Result<Document, NoDocument> {
        match xml::encoding_fault(&text).filter(|_| !text.is_ascii()) {
            Some(fault) => Err(NoDocument::at(text, fault)),
            None => Ok(Document {
                text,
                found,
                way: Way::Library(tape),
            }),
        }
    }

    fn by_quick_xml(text: String, why: NoTape) -> Result<Document, NoDocument> {
        match xml::events(&text) {
            Ok(found) => Ok(Document {
                text,
                found,
                way: Way::QuickXml(why),
            }),
            Err(fault) if fault.is_document_type() => Err(with_document_type(text)),
            Err(fault) => Err(NoDocument::at(text, fault)),
        }
    }

    /// Who read the text.
    pub fn way(&self) -> &Way {
        &self.way
    }

    /// The text, without a byte order mark.
    pub fn text(&self) -> &str {
        &self.text
    }

    /// The events.
    pub fn events(&self) -> &[Event] {
        &self.found.events
    }

    /// The name of an event's tag, with its prefix.
    pub fn name(&self, event: &Event) -> &str {
        self.text.get(event.name.clone()).unwrap_or_default()
    }

    /// The name of an event's tag, after its last colon.
    pub fn local(&self, event: &Event) -> &str {
        local_name(self.name(event))
    }

    /// Keys, values, and where the value starts.
    pub fn attributes(&self, event: &Event) -> impl Iterator<Item = (&str, &str, usize)> {
        let found = self
            .found
            .attributes
            .get(event.attributes.clone())
            .unwrap_or_default();
        let part =
            |range: &std::ops::Range<usize>| self.text.get(range.clone()).unwrap_or_default();
        found
            .iter()
            .map(move |a| (part(&a.key), part(&a.value), a.value.start))
    }

    /// The value of the first attribute whose key, after its last colon, is `word`; and where it starts.
    pub fn attribute(&self, event: &Event, word: &str) -> Option<(&str, usize)> {
        let mut found = self
            .attributes(event)
            .filter(|(key, _, _)| local_name(key) == word);
        found.next().map(|(_, value, at)| (value, at))
    }

    /// The events from `first` on, at most `most`, as many as a piece holds.
    ///
    /// # Errors
    ///
    /// [`Fault`] for a tag that fits into no piece and is the first.
    pub fn piece(&self, first: usize, most: usize) -> Result<Piece<'_>, Fault> {
        if let Way::Library(tape) = &self.way {
            let (marks, events) = tape.part(first, most);
            return Ok(Piece {
                text: Cow::Borrowed(self.text.as_bytes()),
                marks: Cow::Borrowed(marks),
                events,
            });
        }
        self.built(first, most)
    }

    /// A piece with a text of its own.
    fn built(&self, first: usize, most: usize) -> Result<Piece<'_>, Fault> {
        let mut builder = TapeBuilder::new();
        for event in self.events().iter().skip(first).take(most) {
            match self.put(&mut builder, event) {
                Ok(()) => {}
                Err(PieceFull::TooLong { .. }) if builder.events() > 0 => break,
                Err(PieceFull::Full) => break,
                Err(full) => {
                    let words = format!(
                        "the tag {} is too long: {full}",
                        crate::words::quoted(self.name(event))
                    );
                    return Err(Fault {
                        at: event.at,
                        cause: Unread::TooLong,
                        words,
                    });
                }
            }
        }
        let events = builder.events();
        let (text, marks) = builder.finish().into_buffers();
        Ok(Piece {
            text: Cow::Owned(text),
            marks: Cow::Owned(marks),
            events,
        })
    }

    fn put(&self, builder: &mut TapeBuilder, event: &Event) -> Result<(), PieceFull> {
        let attributes: Vec<(&str, &str)> = self
            .attributes(event)
            .map(|(key, value, _)| (key, value))
            .collect();
        match event.kind {
            EventKind::Start => builder.start(self.name(event), &attributes),
            EventKind::Empty => builder.empty(self.name(event), &attributes),
            EventKind::Close => builder.close(),
        }
    }
}

/// A text with a document type, which neither the library nor quick-xml reads here.
fn with_document_type(text: String) -> NoDocument {
    let fault = Fault {
        at: document_type(&text),
        cause: Unread::DocumentType,
        words: "a document type is not read".to_owned(),
    };
    NoDocument::at(text, fault).refused_with(NoTape::Doctype.number())
}

/// What is wrong in a text that the library finds not well formed, as far as this program's own tests can tell.
fn malformed(decoded: Result<String, NoDocument>) -> NoDocument {
    let refusal = NoTape::Malformed;
    let text = match decoded {
        Ok(text) => text,
        Err(no_text) => return no_text.refused_with(refusal.number()),
    };
    match xml::fault_of(&text) {
        Some(fault) => NoDocument::at(text, fault).refused_with(refusal.number()),
        None => NoDocument {
            cause: Unread::Malformed,
            words: refusal.to_string(),
            place: None,
        },
    }
}

/// How files of two or four bytes a character start, the longer ones first, and their encodings as iconv names them.
const WIDE: [(&[u8], &str); 9] = [
    (b"\xFF\xFE\0\0", "UTF-32"),
    (b"\0\0\xFE\xFF", "UTF-32"),
    (b"<\0\0\0", "UTF-32LE"),
    (b"\0\0\0<", "UTF-32BE"),
    (b"\xFF\xFE", "UTF-16"),
    (b"\xFE\xFF", "UTF-16"),
    (b"<\0", "UTF-16LE"),
    (b"\0<", "UTF-16BE"),
    (b"\0\0", "UTF-32"),
];

/// The bytes as text: UTF-8 with or without a byte order mark.
fn decoded(mut bytes: Vec<u8>) -> Result<String, NoDocument> {
    if let Some((_, name)) = WIDE.iter().find(|(start, _)| bytes.starts_with(start)) {
        let words = format!(
            "the file is in {name}, only UTF-8 is read; {}",
            xml::write_anew(name)
        );
        let (at, cause) = (0, Unread::Encoding);
        return Err(NoDocument::at(String::new(), Fault { at, cause, words }));
    }
    if bytes.starts_with(BYTE_ORDER_MARK) {
        bytes.drain(..BYTE_ORDER_MARK.len());
    }
    String::from_utf8(bytes).map_err(|error| {
        let at = error.utf8_error().valid_up_to();
        let text = String::from_utf8_lossy(error.as_bytes()).into_owned();
        match xml::encoding_fault(&text).filter(|fault| fault.at < at) {
            Some(fault) => NoDocument::at(text, fault),
            None => {
                let (cause, words) = (Unread::NotUtf8, "a byte that is no UTF-8".to_owned());
                NoDocument::at(text, Fault { at, cause, words })
            }
        }
    })
}
