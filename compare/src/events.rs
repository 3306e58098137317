//! The events of an XML text, as the adapter reads them, and tapes of them in pieces.

use quick_xml::events::{BytesStart, Event as XmlEvent};
use quick_xml::{Error, Reader};

pub use crate::derived::xsd::parser::prepared::{with_prepared, Prepared};
use crate::tape::{Event, Tag, Tape};

/// The tags of `text` in order.
///
/// # Errors
///
/// Returns [`Error`] where quick-xml refuses the text.
pub fn events_of_xml(text: &str) -> Result<Vec<Event>, Error> {
    let mut xml = Reader::from_str(text);
    let mut buffer = Vec::new();
    let mut events = Vec::new();
    loop {
        match xml.read_event_into(&mut buffer)? {
            XmlEvent::Start(tag) => events.push(Event::Start(tag_of(&tag))),
            XmlEvent::Empty(tag) => events.push(Event::Empty(tag_of(&tag))),
            XmlEvent::End(_) => events.push(Event::Close),
            XmlEvent::Eof => return Ok(events),
            XmlEvent::Other => {}
        }
        buffer.clear();
    }
}

fn tag_of(tag: &BytesStart<'_>) -> Tag {
    let attributes = tag.attributes().flatten();
    Tag {
        name: tag.name().as_ref().to_owned(),
        attributes: attributes
            .map(|found| (found.key.as_ref().to_owned(), found.value.into_owned()))
            .collect(),
    }
}

/// The tapes of `events` in as few pieces as the limits of a piece allow.
pub fn pieces(events: &[Event]) -> Vec<Tape> {
    let mut pieces = vec![Tape::default()];
    for event in events {
        let one = Tape::of(std::slice::from_ref(event));
        let last = pieces.last().expect("there is a piece");
        let text = last.text.len() + one.text.len();
        if text > 65_536 || last.marks.len() + one.marks.len() > 16_384 {
            pieces.push(Tape::default());
        }
        join(pieces.last_mut().expect("there is a piece"), &one);
    }
    pieces
}

/// Puts the tape of one event behind the others.
fn join(tape: &mut Tape, one: &Tape) {
    let moved = tape.text.len() as u32;
    tape.marks.extend(&one.marks[..2]);
    for pair in one.marks[2..].chunks(2) {
        tape.marks.extend([pair[0] + moved, pair[1]]);
    }
    tape.text.extend(&one.text);
}
