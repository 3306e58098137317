//! The part of quick-xml that parser.rs uses, with `str` where quick-xml 0.38 has bytes.
//!
//! Names, keys and values are passed on as they stand in the document: nothing is unescaped or
//! normalised. Each event is checked to be UTF-8 when it is read, so the conversions to `str`
//! behind it cannot fail: quick-xml cuts names, keys and values at ASCII bytes only.

#![forbid(unsafe_code)]

use std::io::BufRead;

pub use quick_xml::reader::Config;
pub use quick_xml::Error;

pub mod events;

use events::Event;

/// An XML reader over any buffered source.
pub struct Reader<R> {
    inner: quick_xml::Reader<R>,
}

impl<R> Reader<R> {
    /// A reader over `source`.
    pub fn from_reader(source: R) -> Self {
        Reader {
            inner: quick_xml::Reader::from_reader(source),
        }
    }

    /// The settings of the reader.
    pub fn config_mut(&mut self) -> &mut Config {
        self.inner.config_mut()
    }
}

impl<'a> Reader<&'a [u8]> {
    /// A reader over the bytes of `text`.
    #[allow(clippy::should_implement_trait)]
    pub fn from_str(text: &'a str) -> Self {
        Reader {
            inner: quick_xml::Reader::from_str(text),
        }
    }
}

impl<R: BufRead> Reader<R> {
    /// The next event. Its bytes are kept in `buffer`.
    ///
    /// # Errors
    ///
    /// Returns [`Error`] where quick-xml refuses the document or the event is not UTF-8.
    pub fn read_event_into<'b>(&mut self, buffer: &'b mut Vec<u8>) -> Result<Event<'b>, Error> {
        let event = self.inner.read_event_into(buffer)?;
        std::str::from_utf8(&event).map_err(|e| Error::Encoding(e.into()))?;
        Ok(Event::from(event))
    }
}
