//! The events of [`Reader`](crate::Reader). Everything that the handlers call is `inline`, so that nothing
//! stands between them and the list.

use std::convert::Infallible;
use std::marker::PhantomData;
use std::slice;

use quick_xml_str::events::{BytesStart as TextStart, Event as TextEvent};

/// An event of the document. Everything but tags and the end is [`Event::Other`].
pub enum Event<'a> {
    /// `<tag attributes>`
    Start(BytesStart<'a>),
    /// `<tag attributes/>`
    Empty(BytesStart<'a>),
    /// `</tag>`
    End(BytesEnd),
    /// The end of the document.
    Eof,
    /// Text, comment, declaration, instruction, document type, entity reference.
    Other,
}

impl<'a> From<TextEvent<'a>> for Event<'a> {
    fn from(event: TextEvent<'a>) -> Self {
        match event {
            TextEvent::Start(tag) => Event::Start(BytesStart::from(tag)),
            TextEvent::Empty(tag) => Event::Empty(BytesStart::from(tag)),
            TextEvent::End(_) => Event::End(BytesEnd),
            TextEvent::Eof => Event::Eof,
            TextEvent::Other => Event::Other,
        }
    }
}

/// A close tag; parser.rs asks nothing of it.
pub struct BytesEnd;

/// A start tag or an empty tag: its name, and its keys and values in order.
pub struct BytesStart<'a> {
    name: String,
    attributes: Vec<(String, String)>,
    /// parser.rs names a lifetime; the texts are copies.
    source: PhantomData<&'a str>,
}

impl<'a> From<TextStart<'a>> for BytesStart<'a> {
    /// A repeated or malformed attribute is left out: parser.rs passes over it.
    fn from(tag: TextStart<'a>) -> Self {
        let found = tag.attributes().flatten();
        BytesStart {
            name: tag.name().as_ref().to_owned(),
            attributes: found
                .map(|one| (one.key.as_ref().to_owned(), one.value.into_owned()))
                .collect(),
            source: PhantomData,
        }
    }
}

impl BytesStart<'_> {
    /// The name of the tag, with its prefix.
    #[inline]
    pub fn name(&self) -> Text<'_> {
        Text(&self.name)
    }

    /// The attributes of the tag in order.
    #[inline]
    pub fn attributes(&self) -> Attributes<'_> {
        Attributes(self.attributes.iter())
    }
}

/// The attributes of a tag.
pub struct Attributes<'a>(slice::Iter<'a, (String, String)>);

impl<'a> Iterator for Attributes<'a> {
    type Item = Result<Attribute<'a>, Infallible>;

    #[inline]
    fn next(&mut self) -> Option<Self::Item> {
        self.0.next().map(|(key, value)| {
            Ok(Attribute {
                key: Text(key),
                value: Text(value),
            })
        })
    }
}

/// One attribute.
pub struct Attribute<'a> {
    /// The key, with its prefix.
    pub key: Text<'a>,
    /// The value as it stands between the quotes.
    pub value: Text<'a>,
}

/// A tag name, a key or a value.
pub struct Text<'a>(&'a str);

impl AsRef<str> for Text<'_> {
    #[inline]
    fn as_ref(&self) -> &str {
        self.0
    }
}
