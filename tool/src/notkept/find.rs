//! The way along the tags of the types: each is kept, harmless or a place.

use lubiksan::names::{local_name, parse_u32};
use lubiksan::ReadAs;

use super::words::{Found, Kind};
use super::Place;
use crate::document::Document;
use crate::failure::quoted;
use crate::follow::{is_kept_facet, Content, Did, Follow, Place as Stands};
use crate::xml::{Event, EventKind};

/// How many places a whole document has.
pub(super) fn count(document: &Document, read_as: ReadAs) -> usize {
    places(document, read_as, usize::MAX).len()
}

/// The places of the first `events` events of a document.
pub(super) fn places(document: &Document, read_as: ReadAs, events: usize) -> Vec<Place<'_>> {
    let mut finder = Finder {
        document,
        follow: Follow::new(document, read_as),
        open: Vec::new(),
        one: OneType::default(),
        places: Vec::new(),
    };
    for (index, event) in document.events().iter().enumerate().take(events) {
        finder.step(index, event);
    }
    finder.end_of_type();
    finder.places.sort_by_key(|place| place.event);
    finder.places
}

/// What an open tag is.
#[derive(Clone, Copy, Debug, PartialEq, Eq)]
enum Role {
    /// A tag outside the types.
    Outside,
    /// A global element that is kept.
    Root,
    /// The type itself.
    Type,
    /// A sequence or choice, with its place and that of its occurs, where it has them.
    Group {
        choice: bool,
        place: Option<usize>,
        occurs: Option<usize>,
        parts: usize,
    },
    /// An element that is kept.
    Element,
    /// An element without a type, of this place.
    Typeless(usize),
    SimpleContent,
    Extension,
    Restriction,
    Annotation,
    /// All of it belongs to this place, or to none.
    Within(Option<usize>),
}

/// What was found in the open type.
#[derive(Default)]
struct OneType<'d> {
    name: Option<&'d str>,
    found: Vec<Found<'d>>,
    /// The first `any` that made the content.
    any: Option<usize>,
    /// Everything but `any` that its content is made of.
    parts: Vec<&'d str>,
    enumerations: Vec<(usize, &'d str)>,
    other_facets: bool,
}

struct Finder<'d> {
    document: &'d Document,
    follow: Follow<'d>,
    open: Vec<Role>,
    one: OneType<'d>,
    places: Vec<Place<'d>>,
}

/// A tag with what the reader did with it.
struct Tag<'d, 'e> {
    index: usize,
    event: &'e Event,
    name: &'d str,
    did: Did,
    /// What the reader stood in before it.
    stood: Stands,
}

impl<'d> Finder<'d> {
    fn step(&mut self, index: usize, event: &'d Event) {
        let stood = self.follow.place();
        let did = self.follow.step(index, event);
        if event.kind == EventKind::Close {
            self.close(did);
            return;
        }
        let name = self.document.local(event);
        let tag = Tag {
            index,
            event,
            name,
            did,
            stood,
        };
        let role = match did {
            Did::Opened => self.type_opened(&tag),
            _ => self.inside(&tag),
        };
        if event.kind == EventKind::Start {
            self.open.push(role);
        } else {
            self.ended(role);
        }
    }

    fn close(&mut self, did: Did) {
        if let Some(role) = self.open.pop() {
            self.ended(role);
        }
        if did == Did::Closed {
            self.end_of_type();
        }
    }

    fn type_opened(&mut self, tag: &Tag<'d, '_>) -> Role {
        self.end_of_type();
        self.one.name = self.attribute(tag, "name");
        let name = self.one.name.unwrap_or_default();
        for (word, kind) in [("mixed", Kind::Mixed), ("abstract", Kind::Abstract)] {
            if self.is_true(tag, word) {
                self.put(tag, kind, name, String::new());
            }
        }
        Role::Type
    }

    /// A tag that opens no type.
    fn inside(&mut self, tag: &Tag<'d, '_>) -> Role {
        let parent = self.open.last().copied().unwrap_or(Role::Outside);
        self.note_row(tag);
        match (parent, tag.name) {
            (Role::Outside, _) => self.outside(tag),
            (Role::Root, "key" | "keyref" | "unique") => self.key(tag),
            (Role::Root, _) => Role::Within(None),
            (Role::Within(place), _) => self.within(tag, place),
            (Role::Annotation, _) => self.in_annotation(tag),
            (_, "annotation") => Role::Annotation,
            (Role::Type, _) if tag.stood == Stands::SimpleType => self.in_simple_type(tag),
            (Role::Type, _) => self.in_complex_type(tag),
            (Role::Group { choice, .. }, _) => self.in_group(tag, choice),
            (Role::Element, "key" | "keyref" | "unique") => self.key(tag),
            (Role::Typeless(place), "simpleType" | "complexType") => {
                self.set_kind(place, Kind::OwnType);
                Role::Within(Some(place))
            }
            (Role::SimpleContent, _) => self.in_simple_content(tag),
            (Role::Extension, _) => self.group_or_attribute(tag),
            (Role::Restriction, _) => self.in_restriction(tag),
            _ => self.place(tag, Kind::Tag, tag.name),
        }
    }

    /// What every row does, wherever its tag stands.
    fn note_row(&mut self, tag: &Tag<'d, '_>) {
        match (tag.stood, tag.did) {
            (Stands::SimpleType, Did::Row) if tag.name == "enumeration" => {
                let value = self.attribute(tag, "value").unwrap_or_default();
                self.one.enumerations.push((tag.index, value));
            }
            (Stands::SimpleType, Did::Row) => self.one.other_facets = true,
            (Stands::ComplexType(_), Did::Content) if tag.name == "any" => {
                self.one.any.get_or_insert(tag.index);
            }
            _ => {}
        }
    }

    fn outside(&mut self, tag: &Tag<'d, '_>) -> Role {
        if tag.did != Did::Row {
            return Role::Outside;
        }
        let name = self.attribute(tag, "name").unwrap_or_default();
        self.one = OneType::default();
        if self.is_true(tag, "abstract") {
            self.put_of(tag, Kind::Abstract, name, String::new());
        }
        self.values(tag, name);
        if let Some(group) = self.attribute(tag, "substitutionGroup") {
            self.put_of(tag, Kind::SubstitutionGroup, name, quoted(group));
        }
        self.end_of_type();
        Role::Root
    }

    /// Everything inside belongs to a place; rows that it makes all the same join the type.
    fn within(&mut self, tag: &Tag<'d, '_>, place: Option<usize>) -> Role {
        if tag.did == Did::Row && tag.name == "element" {
            let name = self.attribute(tag, "name").unwrap_or_default();
            let required = self.is_required(tag);
            self.one.parts.push(name);
            let found = place.and_then(|place| self.one.found.get_mut(place));
            found
                .into_iter()
                .for_each(|found| found.fields.push((name, required)));
        }
        Role::Within(place)
    }

    fn in_annotation(&mut self, tag: &Tag<'d, '_>) -> Role {
        if tag.did != Did::Nothing {
            let found = self.found(tag, Kind::Annotation, tag.name);
            self.one.found.push(found);
        }
        Role::Annotation
    }

    fn in_simple_type(&mut self, tag: &Tag<'d, '_>) -> Role {
        match tag.name {
            "restriction" => Role::Restriction,
            "union" => self.place(tag, Kind::Union, tag.name),
            "list" => self.place(tag, Kind::List, tag.name),
            _ => self.place(tag, Kind::Tag, tag.name),
        }
    }

    fn in_restriction(&mut self, tag: &Tag<'d, '_>) -> Role {
        let value = self.attribute(tag, "value").unwrap_or_default();
        match tag.name {
            "simpleType" => self.place(tag, Kind::OwnType, tag.name),
            _ if tag.did == Did::Row => Role::Within(None),
            name if is_kept_facet(name) => {
                let why = format!("{} is not kept: it has content of its own", quoted(value));
                self.place_of(tag, Kind::Facet, name, why)
            }
            "length" | "minExclusive" | "maxExclusive" | "whiteSpace" | "assertion"
            | "explicitTimezone" => {
                let why = format!("{} is not kept", quoted(value));
                self.place_of(tag, Kind::Facet, tag.name, why)
            }
            _ => self.place(tag, Kind::Tag, tag.name),
        }
    }

    fn in_complex_type(&mut self, tag: &Tag<'d, '_>) -> Role {
        match tag.name {
            "sequence" | "choice" => self.group(tag, None),
            "simpleContent" => Role::SimpleContent,
            "complexContent" => self.place(tag, Kind::ComplexContent, tag.name),
            "all" => self.place(tag, Kind::All, tag.name),
            _ => self.group_or_attribute(tag),
        }
    }

    /// What may stand in a type and in a sequence or extension.
    fn group_or_attribute(&mut self, tag: &Tag<'d, '_>) -> Role {
        let referred = self.attribute(tag, "ref").map(local_name);
        match tag.name {
            "group" => {
                let name = referred.unwrap_or_default();
                self.one.parts.push(name);
                self.place(tag, Kind::Group, name)
            }
            "attributeGroup" => self.place(tag, Kind::AttributeGroup, referred.unwrap_or_default()),
            "attribute" => self.attribute_tag(tag, referred),
            "anyAttribute" => self.place(tag, Kind::AnyAttribute, tag.name),
            "any" => self.any(tag),
            _ => self.place(tag, Kind::Tag, tag.name),
        }
    }

    fn attribute_tag(&mut self, tag: &Tag<'d, '_>, referred: Option<&'d str>) -> Role {
        if let Some(name) = referred {
            return self.about(tag, Kind::Reference, name, String::new());
        }
        let name = self.attribute(tag, "name").unwrap_or_default();
        if tag.did == Did::Row {
            self.values(tag, name);
            if self.attribute(tag, "use") == Some("prohibited") {
                self.put_of(tag, Kind::Prohibited, name, String::new());
            }
            return Role::Within(None);
        }
        self.about(tag, Kind::Attribute, name, String::new())
    }

    fn any(&mut self, tag: &Tag<'d, '_>) -> Role {
        match tag.did {
            Did::Content => Role::Within(None),
            _ => self.place(tag, Kind::Any, tag.name),
        }
    }

    fn in_simple_content(&mut self, tag: &Tag<'d, '_>) -> Role {
        match (tag.name, tag.did) {
            ("extension", Did::Base) => Role::Extension,
            ("extension", _) => {
                let why = "its extension is an empty tag".to_owned();
                self.place_of(tag, Kind::SimpleContent, tag.name, why)
            }
            ("restriction", _) => {
                let why = "it is a restriction".to_owned();
                self.place_of(tag, Kind::SimpleContent, tag.name, why)
            }
            _ => self.place(tag, Kind::Tag, tag.name),
        }
    }

    /// A tag in a sequence or choice.
    fn in_group(&mut self, tag: &Tag<'d, '_>, choice: bool) -> Role {
        if let Some(Role::Group { parts, .. }) = self.open.last_mut() {
            *parts += 1;
        }
        match (tag.name, choice) {
            ("element", _) => self.element(tag),
            ("choice", false) => self.group(tag, Some(Kind::ChoiceInSequence)),
            ("sequence", true) => self.group(tag, Some(Kind::SequenceInChoice)),
            ("choice" | "sequence", _) => self.group(tag, None),
            _ => self.group_or_attribute(tag),
        }
    }

    /// A sequence or choice; `kind` where it stands inside the other one.
    fn group(&mut self, tag: &Tag<'d, '_>, kind: Option<Kind>) -> Role {
        let choice = tag.name == "choice";
        let place = kind.map(|kind| self.put(tag, kind, tag.name, String::new()));
        let of = |word: &str| {
            let value = self.attribute(tag, word)?;
            (parse_u32(value) != Some(1)).then(|| format!("{word} {}", quoted(value)))
        };
        let parts: Vec<String> = ["minOccurs", "maxOccurs"]
            .into_iter()
            .filter_map(of)
            .collect();
        let kind = match choice {
            true => Kind::OccursOfChoice,
            false => Kind::OccursOfSequence,
        };
        let occurs =
            (!parts.is_empty()).then(|| self.put(tag, kind, tag.name, parts.join(" and ")));
        Role::Group {
            choice,
            place,
            occurs,
            parts: 0,
        }
    }

    fn element(&mut self, tag: &Tag<'d, '_>) -> Role {
        let name = self.attribute(tag, "name");
        let referred = self.attribute(tag, "ref").map(local_name);
        self.one.parts.push(name.or(referred).unwrap_or_default());
        match (name, referred) {
            (Some(name), _) if tag.did == Did::Row => self.kept_element(tag, name),
            (None, Some(name)) => self.about(tag, Kind::Reference, name, String::new()),
            (name, _) => {
                let typed = self.attribute(tag, "type").is_some();
                let why = match typed {
                    true => "it has content of its own",
                    false => "it has no type",
                };
                let name = name.unwrap_or_default();
                let place = self.put_of(tag, Kind::Element, name, why.to_owned());
                match typed {
                    true => Role::Within(Some(place)),
                    false => Role::Typeless(place),
                }
            }
        }
    }

    fn kept_element(&mut self, tag: &Tag<'d, '_>, name: &'d str) -> Role {
        let required = self.is_required(tag);
        self.add_to_groups(name, required);
        self.values(tag, name);
        let choice = tag.stood == Stands::ComplexType(Content::Choice);
        let max = self.attribute(tag, "maxOccurs");
        if !choice && max.and_then(parse_u32) == Some(0) {
            self.put_of(tag, Kind::MaxOccursZero, name, String::new());
        }
        let kinds = [
            ("minOccurs", Kind::MinOccursInChoice),
            ("maxOccurs", Kind::MaxOccursInChoice),
        ];
        for (word, kind) in kinds.into_iter().filter(|_| choice) {
            let value = self
                .attribute(tag, word)
                .filter(|value| parse_u32(value) != Some(1));
            if let Some(value) = value {
                self.put_of(tag, kind, name, format!("{word} {}", quoted(value)));
            }
        }
        Role::Element
    }

    /// The field or variant is required in the graph.
    fn is_required(&self, tag: &Tag<'d, '_>) -> bool {
        let number = |word| self.attribute(tag, word).map_or(Some(1), parse_u32);
        match (number("minOccurs"), number("maxOccurs")) {
            (_, None) | (Some(0), Some(1)) => false,
            (_, Some(most)) => most <= 1,
        }
    }

    /// The element belongs to every group that it stands in.
    fn add_to_groups(&mut self, name: &'d str, required: bool) {
        let groups = self.open.iter().filter_map(|role| match role {
            Role::Group { place, occurs, .. } => Some([*place, *occurs]),
            _ => None,
        });
        for place in groups.flatten().flatten() {
            if let Some(found) = self.one.found.get_mut(place) {
                found.fields.push((name, required));
            }
        }
    }

    /// `default`, `fixed` and `nillable` of an element or attribute that is kept.
    fn values(&mut self, tag: &Tag<'d, '_>, name: &'d str) {
        for (word, kind) in [("default", Kind::Default), ("fixed", Kind::Fixed)] {
            if let Some(value) = self.attribute(tag, word) {
                self.put_of(tag, kind, name, quoted(value));
            }
        }
        if self.is_true(tag, "nillable") {
            self.put_of(tag, Kind::Nillable, name, String::new());
        }
    }

    fn is_true(&self, tag: &Tag<'d, '_>, word: &str) -> bool {
        let value = self.attribute(tag, word).map(str::trim);
        matches!(value, Some("true" | "1"))
    }

    fn key(&mut self, tag: &Tag<'d, '_>) -> Role {
        let name = self.attribute(tag, "name").unwrap_or_default();
        let place = self.put(tag, Kind::Key, name, tag.name.to_owned());
        if self.one.name.is_none() {
            self.end_of_type();
        }
        Role::Within(Some(place))
    }

    /// A tag has ended. A group of one part is as good without itself.
    fn ended(&mut self, role: Role) {
        if let Role::Group {
            place: Some(place),
            parts: 1,
            ..
        } = role
        {
            if let Some(found) = self.one.found.get_mut(place) {
                found.event = usize::MAX;
            }
        }
    }

    /// The type has ended: its places are made.
    fn end_of_type(&mut self) {
        let mut one = std::mem::take(&mut self.one);
        if one.any.is_some() {
            one.found.retain(|found| !found.kind.is_of_content());
        }
        one.found.retain(|found| found.event != usize::MAX);
        let any = one.any.filter(|_| !one.parts.is_empty());
        let fields = one.parts.iter().map(|&name| (name, false)).collect();
        one.found.extend(any.map(|event| Found {
            kind: Kind::Any,
            event,
            fields,
            what: "any",
            more: String::new(),
        }));
        let first = one.enumerations.first().filter(|_| one.other_facets);
        let fields = one
            .enumerations
            .iter()
            .map(|&(_, value)| (value, false))
            .collect();
        let enumerations = first.map(|&(event, _)| Found {
            kind: Kind::Enumeration,
            event,
            fields,
            what: "",
            more: String::new(),
        });
        one.found.extend(enumerations);
        let made = one.found.iter().map(|found| self.made(one.name, found));
        let made: Vec<Place<'d>> = made.collect();
        self.places.extend(made);
    }

    fn made(&self, type_name: Option<&'d str>, found: &Found<'d>) -> Place<'d> {
        let (words, note) = found.words();
        let event = self.document.events().get(found.event);
        Place {
            kind: found.kind,
            event: found.event,
            at: event.map_or(0, |event| event.at),
            type_name,
            fields: found.fields.iter().map(|&(name, _)| name).collect(),
            words,
            note,
        }
    }

    fn attribute(&self, tag: &Tag<'d, '_>, word: &str) -> Option<&'d str> {
        self.document
            .attribute(tag.event, word)
            .map(|(value, _)| value)
    }

    fn found(&self, tag: &Tag<'d, '_>, kind: Kind, what: &'d str) -> Found<'d> {
        Found {
            kind,
            event: tag.index,
            fields: Vec::new(),
            what,
            more: String::new(),
        }
    }

    fn set_kind(&mut self, place: usize, kind: Kind) {
        if let Some(found) = self.one.found.get_mut(place) {
            found.kind = kind;
        }
    }

    /// A place about no field that is known yet.
    fn put(&mut self, tag: &Tag<'d, '_>, kind: Kind, what: &'d str, more: String) -> usize {
        let found = self.found(tag, kind, what);
        self.one.found.push(Found { more, ..found });
        self.one.found.len() - 1
    }

    /// A place about one element, attribute or type.
    fn put_of(&mut self, tag: &Tag<'d, '_>, kind: Kind, what: &'d str, more: String) -> usize {
        let place = self.put(tag, kind, what, more);
        if let Some(found) = self.one.found.get_mut(place) {
            found.fields.push((what, false));
        }
        place
    }

    /// A place that holds all that stands inside the tag.
    fn place(&mut self, tag: &Tag<'d, '_>, kind: Kind, what: &'d str) -> Role {
        self.place_of(tag, kind, what, String::new())
    }

    fn place_of(&mut self, tag: &Tag<'d, '_>, kind: Kind, what: &'d str, more: String) -> Role {
        Role::Within(Some(self.put(tag, kind, what, more)))
    }

    /// The same, about one element or attribute.
    fn about(&mut self, tag: &Tag<'d, '_>, kind: Kind, what: &'d str, more: String) -> Role {
        Role::Within(Some(self.put_of(tag, kind, what, more)))
    }
}
