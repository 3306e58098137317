//! The events of [`Reader`](crate::Reader), and what stands in a tag.

use std::borrow::Cow;

use quick_xml::events::attributes::{
    AttrError, Attribute as ByteAttribute, Attributes as ByteAttributes,
};
use quick_xml::events::{BytesEnd, BytesStart as ByteStart, Event as ByteEvent};

/// An event of the document. Everything but tags and the end is [`Event::Other`].
pub enum Event<'a> {
    /// `<tag attributes>`
    Start(BytesStart<'a>),
    /// `<tag attributes/>`
    Empty(BytesStart<'a>),
    /// `</tag>`
    End(BytesEnd<'a>),
    /// The end of the document.
    Eof,
    /// Text, comment, declaration, instruction, document type, entity reference.
    Other,
}

impl<'a> From<ByteEvent<'a>> for Event<'a> {
    fn from(event: ByteEvent<'a>) -> Self {
        match event {
            ByteEvent::Start(tag) => Event::Start(BytesStart(tag)),
            ByteEvent::Empty(tag) => Event::Empty(BytesStart(tag)),
            ByteEvent::End(tag) => Event::End(tag),
            ByteEvent::Eof => Event::Eof,
            _ => Event::Other,
        }
    }
}

/// A start tag or an empty tag.
pub struct BytesStart<'a>(ByteStart<'a>);

impl BytesStart<'_> {
    /// The name of the tag, with its prefix.
    pub fn name(&self) -> QName<'_> {
        QName(text_of(self.0.name().into_inner()))
    }

    /// The attributes of the tag in order; a repeated or malformed one is an error.
    pub fn attributes(&self) -> Attributes<'_> {
        Attributes(self.0.attributes())
    }
}

/// The attributes of a tag.
pub struct Attributes<'a>(ByteAttributes<'a>);

impl<'a> Iterator for Attributes<'a> {
    type Item = Result<Attribute<'a>, AttrError>;

    fn next(&mut self) -> Option<Self::Item> {
        self.0.next().map(|found| found.map(Attribute::from))
    }
}

/// One attribute.
pub struct Attribute<'a> {
    /// The key, with its prefix.
    pub key: QName<'a>,
    /// The value as it stands between the quotes.
    pub value: Cow<'a, str>,
}

impl<'a> From<ByteAttribute<'a>> for Attribute<'a> {
    fn from(attribute: ByteAttribute<'a>) -> Self {
        Attribute {
            key: QName(text_of(attribute.key.into_inner())),
            value: value_of(attribute.value),
        }
    }
}

/// A qualified name: a tag name or an attribute key, with its prefix.
pub struct QName<'a>(&'a str);

impl AsRef<str> for QName<'_> {
    fn as_ref(&self) -> &str {
        self.0
    }
}

fn value_of(bytes: Cow<'_, [u8]>) -> Cow<'_, str> {
    match bytes {
        Cow::Borrowed(bytes) => Cow::Borrowed(text_of(bytes)),
        Cow::Owned(bytes) => Cow::Owned(text_of(&bytes).to_owned()),
    }
}

fn text_of(bytes: &[u8]) -> &str {
    std::str::from_utf8(bytes).expect("the event was checked to be UTF-8")
}
