//! What the library's reader does with each tag of a document, followed in one pass without a call: which tag made which row of
//! the sheet. The rules are those of paper 01, "What an event does", with the choice of order 3; the tests hold the outcome
//! against readings that end behind each tag.

use lubiksan::ReadAs;

use crate::document::Document;
use crate::xml::{Event, EventKind};

/// What the open complex type holds so far.
#[derive(Clone, Copy, Debug, PartialEq, Eq)]
pub enum Content {
    /// Nothing yet.
    Absent,
    /// A sequence: elements become fields.
    Sequence,
    /// A choice: elements become variants.
    Choice,
    /// Simple content: attributes are kept once its extension has come.
    Simple,
    /// Any content.
    Any,
}

/// What the reading stands in.
#[derive(Clone, Copy, Debug, PartialEq, Eq)]
pub enum Place {
    /// Outside a schema.
    Outside,
    /// In a schema, outside its types.
    Schema,
    /// In a simple type.
    SimpleType,
    /// In a complex type with this content.
    ComplexType(Content),
}

/// What a tag did.
#[derive(Clone, Copy, Debug, PartialEq, Eq)]
pub enum Did {
    /// Nothing: it is passed over.
    Nothing,
    /// It began a schema.
    Schema,
    /// It opened a type.
    Opened,
    /// It added a row: an element, field, variant, attribute, facet or code.
    Row,
    /// It replaced the content of the open type.
    Content,
    /// It set the base of the open type.
    Base,
    /// It closed the open type.
    Closed,
}

/// The way along the events of a document.
pub struct Follow<'d> {
    document: &'d Document,
    by_standard: bool,
    place: Place,
    /// The open tags below the open type, or by the standard below the schema.
    nesting: usize,
    extended: bool,
    /// The row of the open type's head.
    head: usize,
    /// For each row the event that made it.
    rows: Vec<usize>,
}

impl<'d> Follow<'d> {
    /// Before the first event.
    pub fn new(document: &'d Document, read_as: ReadAs) -> Follow<'d> {
        Follow {
            document,
            by_standard: read_as == ReadAs::Standard,
            place: Place::Outside,
            nesting: 0,
            extended: false,
            head: 0,
            rows: vec![0; 2],
        }
    }

    /// What the reading stands in.
    pub fn place(&self) -> Place {
        self.place
    }

    /// How many tags are open below the open type.
    pub fn nesting(&self) -> usize {
        self.nesting
    }

    /// For each row the event that made it; row 0 and row 1 are made by none.
    pub fn rows(&self) -> &[usize] {
        &self.rows
    }

    /// Follows the event of this number.
    pub fn step(&mut self, index: usize, event: &Event) -> Did {
        match event.kind {
            EventKind::Start => self.start(index, event),
            EventKind::Empty => self.empty(index, event),
            EventKind::Close => self.close(),
        }
    }

    fn start(&mut self, index: usize, event: &Event) -> Did {
        let tag = self.document.local(event);
        match self.place {
            Place::Outside if tag == "schema" => {
                self.place = Place::Schema;
                Did::Schema
            }
            Place::Outside => Did::Nothing,
            Place::Schema => self.start_in_schema(index, event, tag),
            Place::SimpleType => {
                self.nesting += 1;
                match self.nesting == 1 && tag == "restriction" {
                    true => Did::Base,
                    false => Did::Nothing,
                }
            }
            Place::ComplexType(content) => {
                self.nesting += 1;
                self.start_in_complex_type(index, event, tag, content)
            }
        }
    }

    fn start_in_schema(&mut self, index: usize, event: &Event, tag: &str) -> Did {
        let opened = match (self.nesting, tag) {
            (0, "simpleType") => Some(Place::SimpleType),
            (0, "complexType") => Some(Place::ComplexType(Content::Absent)),
            _ => None,
        };
        if let Some(place) = opened {
            self.place = place;
            self.head = self.rows.len();
            return self.row(index, Did::Opened);
        }
        let did = match self.nesting == 0 && tag == "element" {
            true => self.typed(index, event),
            false => Did::Nothing,
        };
        self.nesting += usize::from(self.by_standard);
        did
    }

    fn start_in_complex_type(
        &mut self,
        index: usize,
        event: &Event,
        tag: &str,
        content: Content,
    ) -> Did {
        match (self.nesting, tag) {
            (1, "sequence") => self.content(Content::Sequence),
            (1, "choice") => self.content(Content::Choice),
            (1, "simpleContent") => self.content(Content::Simple),
            (2, "extension") if content == Content::Simple => {
                self.extended = true;
                Did::Base
            }
            (2, "element") => self.element(index, event, content),
            _ => Did::Nothing,
        }
    }

    fn empty(&mut self, index: usize, event: &Event) -> Did {
        let tag = self.document.local(event);
        match (self.place, tag) {
            (Place::Outside, "schema") => Did::Schema,
            (Place::Schema, "element") if self.nesting == 0 => self.typed(index, event),
            (Place::SimpleType, "restriction") => Did::Base,
            (Place::SimpleType, _) if is_kept_facet(tag) => self.row(index, Did::Row),
            (Place::ComplexType(content), "element") => self.element(index, event, content),
            (Place::ComplexType(_), "any") => self.content(Content::Any),
            (Place::ComplexType(_), "attribute") if self.extended => self.typed(index, event),
            _ => Did::Nothing,
        }
    }

    fn close(&mut self) -> Did {
        if self.nesting > 0 {
            self.nesting -= 1;
            return Did::Nothing;
        }
        match self.place {
            Place::Outside | Place::Schema => {
                self.place = Place::Outside;
                Did::Nothing
            }
            _ => {
                (self.place, self.extended) = (Place::Schema, false);
                Did::Closed
            }
        }
    }

    /// The element adds to a sequence or choice.
    fn element(&mut self, index: usize, event: &Event, content: Content) -> Did {
        match content {
            Content::Sequence | Content::Choice => self.typed(index, event),
            _ => Did::Nothing,
        }
    }

    /// The tag makes a row where it has name and type.
    fn typed(&mut self, index: usize, event: &Event) -> Did {
        let has = |word| self.document.attribute(event, word).is_some();
        match has("name") && has("type") {
            true => self.row(index, Did::Row),
            false => Did::Nothing,
        }
    }

    fn row(&mut self, index: usize, did: Did) -> Did {
        self.rows.push(index);
        did
    }

    /// The content of the open type is replaced: its head stays alone.
    fn content(&mut self, content: Content) -> Did {
        (self.place, self.extended) = (Place::ComplexType(content), false);
        self.rows.truncate(self.head + 1);
        Did::Content
    }
}

/// The facets that a simple type keeps, as empty tags.
pub fn is_kept_facet(tag: &str) -> bool {
    matches!(
        tag,
        "enumeration"
            | "pattern"
            | "minLength"
            | "maxLength"
            | "minInclusive"
            | "maxInclusive"
            | "totalDigits"
            | "fractionDigits"
    )
}

/// For each row of the sheet the event that made it, after `events` events.
pub fn rows(document: &Document, read_as: ReadAs, events: usize) -> Vec<usize> {
    let mut follow = Follow::new(document, read_as);
    for (index, event) in document.events().iter().enumerate().take(events) {
        follow.step(index, event);
    }
    follow.rows
}
