//! The handlers of parser.rs alone, on events that were read before. Compiled twice: here over the
//! adapter whose tags are cut by the handlers, in the crate `cut` over the one whose tags are cut before.

use quick_xml::events::Event;
use quick_xml::Reader;

use super::{on_empty, on_end, on_start, ParseError, Schema};

/// The events of a text as the adapter gives them.
pub struct Prepared<'a>(Vec<Event<'a>>);

impl Prepared<'_> {
    /// The schema that the handlers make of the events; none where they refuse one.
    pub fn schema(&self) -> Option<Schema> {
        schema_of(&self.0).ok()
    }
}

/// Reads the events of `text` and then calls `run` with them.
///
/// # Panics
///
/// Panics where quick-xml refuses the text.
pub fn with_prepared<A>(text: &str, run: impl FnOnce(&Prepared<'_>) -> A) -> A {
    let mut xml = Reader::from_str(text);
    let tags = text.matches('<').count();
    let mut buffers = vec![Vec::new(); tags];
    let read = |buffer| xml.read_event_into(buffer).expect("the text is XML");
    let events = buffers.iter_mut().map(read).collect();
    run(&Prepared(events))
}

fn schema_of(events: &[Event<'_>]) -> Result<Schema, ParseError> {
    let mut schema = Schema {
        target_namespace: String::new(),
        elements: Vec::new(),
        simple_types: Vec::new(),
        complex_types: Vec::new(),
    };
    let (mut stack, mut found) = (Vec::new(), false);
    for event in events {
        match event {
            Event::Start(e) => on_start(e, &mut stack, &mut schema, &mut found)?,
            Event::Empty(e) => on_empty(e, &mut stack, &mut schema, &mut found)?,
            Event::End(_) => on_end(&mut stack, &mut schema),
            _ => {}
        }
    }
    Ok(schema)
}
