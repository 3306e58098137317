//! A look at a part of an XML text, and the classes of characters of XML 1.0.

use std::error::Error;
use std::fmt;
use std::ops::Range;

use crate::words::quoted;
use crate::xml::Attribute;

/// Why a text is not read.
#[derive(Clone, Copy, Debug, PartialEq, Eq, Hash)]
#[non_exhaustive]
pub enum Unread {
    /// It is not well formed; the library's 17 where it is the library that reads it.
    Malformed,
    /// It has a document type behind a well-formed start, which no one reads, well formed or not: 18.
    DocumentType,
    /// It is in another encoding than UTF-8, or says so.
    Encoding,
    /// It has a byte that is no UTF-8.
    NotUtf8,
    /// A tag fits into no piece.
    TooLong,
}

/// Why a text is not read, and where, with the words for people.
#[derive(Clone, Debug, PartialEq, Eq)]
pub struct Fault {
    /// The byte of the text.
    pub at: usize,
    /// What is wrong.
    pub cause: Unread,
    /// The same in words.
    pub words: String,
}

impl Fault {
    pub(crate) fn is_document_type(&self) -> bool {
        self.cause == Unread::DocumentType
    }
}

impl fmt::Display for Fault {
    fn fmt(&self, f: &mut fmt::Formatter<'_>) -> fmt::Result {
        f.write_str(&self.words)
    }
}

impl Error for Fault {}

pub(crate) fn fault<T>(at: usize, words: impl Into<String>) -> Result<T, Fault> {
    Err(Fault {
        at,
        cause: Unread::Malformed,
        words: words.into(),
    })
}

/// A look at a part of the text, from its start on.
pub(crate) struct Scan<'t> {
    text: &'t str,
    pub at: usize,
    end: usize,
}

impl<'t> Scan<'t> {
    pub fn new(text: &'t str, part: Range<usize>) -> Scan<'t> {
        Scan {
            text,
            at: part.start,
            end: part.end.max(part.start),
        }
    }

    pub fn rest(&self) -> &'t str {
        self.text.get(self.at..self.end).unwrap_or_default()
    }

    pub fn name(&mut self, absent: &str) -> Result<Range<usize>, Fault> {
        let from = self.at;
        let rest = self.rest();
        if !rest.starts_with(is_name_start) {
            return fault(from, absent);
        }
        self.at += rest.find(|c| !is_name(c)).unwrap_or(rest.len());
        Ok(from..self.at)
    }

    /// Passes over white space; was there any?
    pub fn spaces(&mut self) -> bool {
        let from = self.at;
        let rest = self.rest();
        self.at += rest.find(|c| !is_space(c)).unwrap_or(rest.len());
        self.at > from
    }

    pub fn done(&self, words: &str) -> Result<(), Fault> {
        if self.rest().is_empty() {
            return Ok(());
        }
        fault(self.at, words)
    }

    /// The next attribute, none at the end.
    pub fn attribute(&mut self) -> Result<Option<Attribute>, Fault> {
        let apart = self.spaces();
        if self.rest().is_empty() {
            return Ok(None);
        }
        if !apart {
            return fault(self.at, "white space is missing before an attribute");
        }
        let key = self.name("an attribute has no name")?;
        self.spaces();
        if !self.rest().starts_with('=') {
            return fault(
                key.start,
                format!("the attribute {} has no value", self.shown(&key)),
            );
        }
        self.at += 1;
        self.spaces();
        let value = self.value(&key)?;
        Ok(Some(Attribute { key, value }))
    }

    fn shown(&self, key: &Range<usize>) -> String {
        quoted(self.text.get(key.clone()).unwrap_or_default())
    }

    pub fn value(&mut self, key: &Range<usize>) -> Result<Range<usize>, Fault> {
        let rest = self.rest();
        let quote = rest.chars().next().filter(|&c| c == '"' || c == '\'');
        let (Some(quote), Some(behind)) = (quote, rest.get(1..)) else {
            return fault(
                self.at,
                format!("the value of {} is not in quotes", self.shown(key)),
            );
        };
        let Some(length) = behind.find(quote) else {
            return fault(
                self.at,
                format!("the value of {} is not ended by a quote", self.shown(key)),
            );
        };
        let value = self.at + 1..self.at + 1 + length;
        self.at = value.end + 1;
        self.value_holds(&value)?;
        Ok(value)
    }

    /// A value has no `<`, and each `&` starts a reference.
    pub fn value_holds(&self, value: &Range<usize>) -> Result<(), Fault> {
        let text = self.text.get(value.clone()).unwrap_or_default();
        for (found, byte) in text.bytes().enumerate() {
            let at = value.start + found;
            match byte {
                b'<' => return fault(at, "\"<\" in a value"),
                b'&' => Scan::new(self.text, at + 1..value.end).reference(at)?,
                _ => {}
            }
        }
        Ok(())
    }

    /// What stands behind the `&` at `at` makes a reference.
    pub fn reference(&mut self, at: usize) -> Result<(), Fault> {
        let rest = self.rest();
        let Some((body, _)) = rest.split_once(';') else {
            return fault(at, "\"&\" that starts no reference");
        };
        let good = match body.strip_prefix('#') {
            Some(number) => number_of(number).is_some_and(is_character),
            None => matches!(body, "lt" | "gt" | "amp" | "apos" | "quot"),
        };
        if good {
            return Ok(());
        }
        fault(
            at,
            format!(
                "the reference {} stands for nothing",
                quoted(&format!("&{body};"))
            ),
        )
    }
}

/// The character of `123` or `x7B`.
fn number_of(text: &str) -> Option<char> {
    let (digits, radix) = match text.strip_prefix('x') {
        Some(digits) => (digits, 16),
        None => (text, 10),
    };
    let plain = !digits.is_empty() && digits.chars().all(|c| c.is_digit(radix));
    let number = u32::from_str_radix(digits, radix).ok().filter(|_| plain)?;
    char::from_u32(number)
}

pub(crate) fn is_space(c: char) -> bool {
    matches!(c, ' ' | '\t' | '\n' | '\r')
}

/// `NameStartChar` of XML 1.0.
pub(crate) fn is_name_start(c: char) -> bool {
    matches!(c, ':' | '_' | 'A'..='Z' | 'a'..='z' | '\u{C0}'..='\u{D6}' | '\u{D8}'..='\u{F6}')
        || matches!(c, '\u{F8}'..='\u{2FF}' | '\u{370}'..='\u{37D}' | '\u{37F}'..='\u{1FFF}')
        || matches!(c, '\u{200C}'..='\u{200D}' | '\u{2070}'..='\u{218F}' | '\u{2C00}'..='\u{2FEF}')
        || matches!(c, '\u{3001}'..='\u{D7FF}' | '\u{F900}'..='\u{FDCF}' | '\u{FDF0}'..='\u{FFFD}')
        || matches!(c, '\u{10000}'..='\u{EFFFF}')
}

/// `NameChar` of XML 1.0.
pub(crate) fn is_name(c: char) -> bool {
    is_name_start(c)
        || matches!(c, '-' | '.' | '0'..='9' | '\u{B7}' | '\u{300}'..='\u{36F}' | '\u{203F}'..='\u{2040}')
}

/// `Char` of XML 1.0.
pub(crate) fn is_character(c: char) -> bool {
    matches!(c, '\t' | '\n' | '\r' | ' '..='\u{FFFD}' | '\u{10000}'..)
}
