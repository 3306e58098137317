//! The handlers of parser.rs on any state: a child module of the copy sees its private items.

use super::{
    on_empty, on_end, on_start, ComplexContentBuilder, ComplexTypeBuilder, Context, ParseError,
    SimpleTypeBuilder,
};
use crate::tape::{tag_xml, Event, Tag};
use crate::xsd::types::{Attribute, ComplexContent, Restriction, Schema, SimpleType};
use quick_xml::events::{BytesStart, Event as XmlEvent};

/// What parser.rs holds between two events.
#[derive(Clone, Debug, PartialEq)]
pub(crate) struct Reader {
    pub(crate) schema: Schema,
    pub(crate) root_seen: bool,
    pub(crate) open: Open,
    pub(crate) nesting: u32,
}

/// The context: none, the schema, or an open type.
#[derive(Clone, Debug, PartialEq)]
pub(crate) enum Open {
    Nothing,
    Schema,
    Simple(SimpleType),
    Complex { name: String, content: OpenContent },
}

/// The content of an open complex type.
#[derive(Clone, Debug, PartialEq)]
pub(crate) enum OpenContent {
    Absent,
    SimpleContent {
        base: String,
        attributes: Vec<Attribute>,
        extension: bool,
    },
    Other(ComplexContent),
}

/// The reader after `event` as the handlers of parser.rs give it, or the number of the refusal.
pub(crate) fn handled(reader: Reader, event: &Event) -> Result<Reader, u32> {
    after(reader, event).map_err(|error| match error {
        ParseError::MissingAttribute { .. } => 9,
        ParseError::InvalidAttributeValue { .. } => 10,
        other => panic!("a handler gave {other}"),
    })
}

fn after(reader: Reader, event: &Event) -> Result<Reader, ParseError> {
    let Reader {
        mut schema,
        root_seen: mut found,
        open,
        nesting,
    } = reader;
    let mut stack = stack_of(open, nesting);
    match event {
        Event::Start(tag) => with_tag(tag, |e| on_start(e, &mut stack, &mut schema, &mut found))?,
        Event::Empty(tag) => with_tag(tag, |e| on_empty(e, &mut stack, &mut schema, &mut found))?,
        Event::Close => on_end(&mut stack, &mut schema),
    }
    let (open, nesting) = open_of(stack);
    Ok(Reader {
        schema,
        root_seen: found,
        open,
        nesting,
    })
}

/// Calls a handler with the tag as quick-xml reads it.
fn with_tag<A>(tag: &Tag, call: impl FnOnce(&BytesStart<'_>) -> A) -> A {
    let text = tag_xml(tag, "/>");
    let mut buffer = Vec::new();
    let mut xml = super::Reader::from_str(&text);
    match xml.read_event_into(&mut buffer) {
        Ok(XmlEvent::Empty(ref e)) => call(e),
        _ => panic!("{text} is one empty tag"),
    }
}

fn stack_of(open: Open, nesting: u32) -> Vec<Context> {
    match open {
        Open::Nothing => Vec::new(),
        Open::Schema => vec![Context::Schema],
        Open::Simple(simple) => vec![
            Context::Schema,
            Context::SimpleType(SimpleTypeBuilder {
                name: simple.name,
                base: simple.restriction.base,
                facets: simple.restriction.facets,
                nesting_depth: nesting,
            }),
        ],
        Open::Complex { name, content } => vec![
            Context::Schema,
            Context::ComplexType(ComplexTypeBuilder {
                name,
                content: builder_of(content),
                nesting_depth: nesting,
            }),
        ],
    }
}

fn builder_of(content: OpenContent) -> ComplexContentBuilder {
    match content {
        OpenContent::Absent => ComplexContentBuilder::Empty,
        OpenContent::SimpleContent {
            base,
            attributes,
            extension,
        } => ComplexContentBuilder::SimpleContent {
            base,
            attributes,
            in_extension: extension,
        },
        OpenContent::Other(ComplexContent::Sequence(elements)) => {
            ComplexContentBuilder::Sequence(elements)
        }
        OpenContent::Other(ComplexContent::Choice(variants)) => {
            ComplexContentBuilder::Choice(variants)
        }
        OpenContent::Other(ComplexContent::Any { namespace }) => {
            ComplexContentBuilder::Any { namespace }
        }
        OpenContent::Other(ComplexContent::SimpleContent { .. }) => {
            panic!("simple content has its own case")
        }
    }
}

fn open_of(mut stack: Vec<Context>) -> (Open, u32) {
    match stack.pop() {
        None => (Open::Nothing, 0),
        Some(Context::Schema) => {
            assert!(stack.is_empty(), "nothing stands below the schema");
            (Open::Schema, 0)
        }
        Some(Context::SimpleType(b)) => (
            Open::Simple(simple_of(b.name, b.base, b.facets)),
            b.nesting_depth,
        ),
        Some(Context::ComplexType(b)) => {
            let content = content_of(b.content);
            (
                Open::Complex {
                    name: b.name,
                    content,
                },
                b.nesting_depth,
            )
        }
    }
}

fn simple_of(name: String, base: String, facets: Vec<super::Facet>) -> SimpleType {
    SimpleType {
        name,
        restriction: Restriction { base, facets },
    }
}

fn content_of(content: ComplexContentBuilder) -> OpenContent {
    match content {
        ComplexContentBuilder::Empty => OpenContent::Absent,
        ComplexContentBuilder::SimpleContent {
            base,
            attributes,
            in_extension,
        } => OpenContent::SimpleContent {
            base,
            attributes,
            extension: in_extension,
        },
        ComplexContentBuilder::Sequence(elements) => {
            OpenContent::Other(ComplexContent::Sequence(elements))
        }
        ComplexContentBuilder::Choice(variants) => {
            OpenContent::Other(ComplexContent::Choice(variants))
        }
        ComplexContentBuilder::Any { namespace } => {
            OpenContent::Other(ComplexContent::Any { namespace })
        }
    }
}
