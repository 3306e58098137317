//! The part of quick-xml that parser.rs uses, over tags whose attributes are cut when they are read.
//!
//! The adapter `quick-xml-str` reads the document; here a tag becomes its name and a list of keys and
//! values, so that the handlers of parser.rs only go through that list.

#![forbid(unsafe_code)]

use std::io::BufRead;

pub use quick_xml_str::Error;

pub mod events;

use events::Event;

/// An XML reader over any buffered source.
pub struct Reader<R>(quick_xml_str::Reader<R>);

impl<R> Reader<R> {
    /// A reader over `source`.
    pub fn from_reader(source: R) -> Self {
        Reader(quick_xml_str::Reader::from_reader(source))
    }

    /// The settings of the reader.
    pub fn config_mut(&mut self) -> &mut quick_xml_str::Config {
        self.0.config_mut()
    }
}

impl<'a> Reader<&'a [u8]> {
    /// A reader over the bytes of `text`.
    #[allow(clippy::should_implement_trait)]
    pub fn from_str(text: &'a str) -> Self {
        Reader(quick_xml_str::Reader::from_str(text))
    }
}

impl<R: BufRead> Reader<R> {
    /// The next event, its attributes cut.
    ///
    /// # Errors
    ///
    /// Returns [`Error`] where quick-xml refuses the document or the event is not UTF-8.
    pub fn read_event_into<'b>(&mut self, buffer: &'b mut Vec<u8>) -> Result<Event<'b>, Error> {
        self.0.read_event_into(buffer).map(Event::from)
    }
}
