//! A message as serde reads it, from the events of quick-xml.
//!
//! Elements go by their local names, attributes have `@` before the name, a text is `$text`, and the one element of a choice is `$value`, as for
//! `quick_xml::de`. A name goes to serde as the number of its field, what no field asks for is passed over, and the namespaces are looked at where
//! `xsi:nil` may stand: that is why it takes half the time.

use std::borrow::Cow;
use std::fmt;
use std::mem;

use quick_xml::errors::{Error, IllFormedError};
use quick_xml::escape::resolve_predefined_entity;
use quick_xml::events::attributes::{Attribute, Attributes};
use quick_xml::events::{BytesRef, BytesStart, Event};
use quick_xml::name::{Namespace, NamespaceResolver, QName, ResolveResult};
use quick_xml::{DeError, Reader};
use serde::de::value::U64Deserializer;
use serde::de::{self, Deserialize, DeserializeSeed, Deserializer, EnumAccess, IntoDeserializer, MapAccess, SeqAccess, VariantAccess, Visitor};
use serde::forward_to_deserialize_any;

use super::place::VALUE;

/// As many elements may stand inside one another.
const DEEPEST: usize = 255;

const INSTANCE: Namespace<'_> = Namespace(b"http://www.w3.org/2001/XMLSchema-instance");

/// Reads the root element.
///
/// # Errors
///
/// The text is not well formed, or is not what the type asks for.
pub fn read<'t, T: Deserialize<'t>>(text: &'t str) -> Result<T, DeError> {
    Message::of(text).root().map_err(|error| *error.0)
}

/// An error in a box, so that what each step gives back is small.
#[derive(Debug)]
struct Boxed(Box<DeError>);

impl fmt::Display for Boxed {
    fn fmt(&self, f: &mut fmt::Formatter<'_>) -> fmt::Result {
        self.0.fmt(f)
    }
}

impl std::error::Error for Boxed {}

impl de::Error for Boxed {
    #[cold]
    fn custom<T: fmt::Display>(words: T) -> Boxed {
        DeError::custom(words).into()
    }
}

impl<T: Into<DeError>> From<T> for Boxed {
    #[cold]
    fn from(error: T) -> Boxed {
        Boxed(Box::new(error.into()))
    }
}

/// White space alone.
fn is_blank(text: &str) -> bool {
    text.bytes().all(|c| matches!(c, b' ' | b'\t' | b'\r' | b'\n'))
}

/// A tag, or a piece of text; an empty tag is a start and an end.
#[derive(Clone, Copy, PartialEq, Eq)]
enum Part {
    Start,
    End,
    Text,
    Eof,
}

/// The text of a message, read up to some place.
struct Message<'t> {
    reader: Reader<&'t [u8]>,
    /// The start tag that was read last.
    start: BytesStart<'t>,
    /// The text that was read last.
    text: Cow<'t, str>,
    /// What was read and not yet taken.
    behind: Option<Part>,
    /// So many elements are open.
    depth: usize,
    /// The namespaces of the open elements that have attributes, and how many elements were open at each of these.
    spaces: NamespaceResolver,
    declared: Vec<usize>,
}

impl<'t> Message<'t> {
    fn of(text: &'t str) -> Message<'t> {
        let mut reader = Reader::from_str(text);
        reader.config_mut().expand_empty_elements = true;
        Message {
            reader,
            start: BytesStart::new(""),
            text: Cow::Borrowed(""),
            behind: None,
            depth: 0,
            spaces: NamespaceResolver::default(),
            declared: Vec::new(),
        }
    }

    /// Reads the root element.
    fn root<T: Deserialize<'t>>(mut self) -> Result<T, Boxed> {
        loop {
            match self.part()? {
                Part::Start => return T::deserialize(Element(&mut self)),
                Part::Text if is_blank(&self.text) => {}
                Part::Text => return Err(de::Error::custom("a text stands before the root element")),
                Part::End | Part::Eof => return Err(DeError::UnexpectedEof.into()),
            }
        }
    }

    /// The next tag or piece of text.
    fn part(&mut self) -> Result<Part, Boxed> {
        loop {
            self.text = match self.reader.read_event() {
                Ok(Event::Start(start)) => {
                    self.start = start;
                    return self.open();
                }
                Ok(Event::End(_)) => {
                    self.close();
                    return Ok(Part::End);
                }
                Ok(Event::Text(text)) => text.xml10_content()?,
                Ok(Event::CData(text)) => text.xml10_content()?,
                Ok(Event::GeneralRef(reference)) => resolved(&reference)?,
                Ok(Event::Eof) => return Ok(Part::Eof),
                Ok(_) => continue,
                Err(error) => return Err(error.into()),
            };
            return Ok(Part::Text);
        }
    }

    /// The next tag, or all text before it.
    fn next(&mut self) -> Result<Part, Boxed> {
        let part = match self.behind.take() {
            Some(part) => return Ok(part),
            None => self.part()?,
        };
        if part == Part::Text {
            let mut text = mem::take(&mut self.text);
            self.behind = Some(self.rest(&mut text)?);
            self.text = text;
        }
        Ok(part)
    }

    /// Adds the pieces of text up to a tag, which it tells.
    fn rest(&mut self, text: &mut Cow<'t, str>) -> Result<Part, Boxed> {
        loop {
            match self.part()? {
                Part::Text if text.is_empty() => *text = mem::take(&mut self.text),
                Part::Text => text.to_mut().push_str(&self.text),
                part => return Ok(part),
            }
        }
    }

    /// The text up to the end of the element whose start was read last.
    fn inner_text(&mut self) -> Result<Cow<'t, str>, Boxed> {
        let mut text = Cow::Borrowed("");
        match self.rest(&mut text)? {
            Part::Start => Err(DeError::UnexpectedStart(self.start.name().into_inner().to_vec()).into()),
            Part::Eof => Err(self.no_end()),
            Part::End | Part::Text => Ok(text),
        }
    }

    fn open(&mut self) -> Result<Part, Boxed> {
        self.depth += 1;
        if self.depth > DEEPEST {
            return Err(de::Error::custom(format_args!("more than {DEEPEST} elements stand inside one another")));
        }
        if self.has_attributes() {
            self.spaces.push(&self.start).map_err(Error::Namespace)?;
            self.declared.push(self.depth);
        }
        Ok(Part::Start)
    }

    fn close(&mut self) {
        if self.declared.last() == Some(&self.depth) {
            self.declared.pop();
            self.spaces.pop();
        }
        self.depth = self.depth.saturating_sub(1);
    }

    fn has_attributes(&self) -> bool {
        !self.start.attributes_raw().is_empty()
    }

    /// Passes over what stands inside the element whose start was read last.
    fn pass(&mut self) -> Result<(), Boxed> {
        self.reader.read_to_end(self.start.name())?;
        self.close();
        Ok(())
    }

    /// The element whose start was read last has `xsi:nil`.
    fn is_nil(&self) -> bool {
        let nil = |attribute: Attribute<'_>| {
            let (space, name) = self.spaces.resolve_attribute(attribute.key);
            let named = space == ResolveResult::Bound(INSTANCE) && name.into_inner() == b"nil";
            named && attribute.as_bool() == Some(true)
        };
        self.has_attributes() && self.start.attributes().flatten().any(nil)
    }

    fn no_end(&self) -> Boxed {
        let name = String::from_utf8_lossy(self.start.name().into_inner()).into_owned();
        Error::IllFormed(IllFormedError::MissingEndTag(name)).into()
    }
}

/// The text that a reference stands for.
fn resolved(reference: &BytesRef<'_>) -> Result<Cow<'static, str>, Boxed> {
    if let Some(c) = reference.resolve_char_ref()? {
        return Ok(Cow::Owned(c.to_string()));
    }
    let name = reference.decode()?;
    match resolve_predefined_entity(&name) {
        Some(text) => Ok(Cow::Borrowed(text)),
        None => Err(de::Error::custom(format_args!("the entity {name:?} is not known"))),
    }
}

/// The element whose start was read last.
struct Element<'m, 't>(&'m mut Message<'t>);

impl<'t> Element<'_, 't> {
    fn inside<V: Visitor<'t>>(self, fields: &'static [&'static str], visitor: V) -> Result<V::Value, Boxed> {
        let start;
        let mut attributes = None;
        if self.0.has_attributes() {
            start = self.0.start.clone();
            attributes = Some(start.attributes());
        }
        visitor.visit_map(Inside {
            message: self.0,
            attributes,
            fields,
            expected: 0,
            found: Found::Element,
        })
    }
}

impl<'t> Deserializer<'t> for Element<'_, 't> {
    type Error = Boxed;

    fn deserialize_any<V: Visitor<'t>>(self, visitor: V) -> Result<V::Value, Boxed> {
        self.inside(&[], visitor)
    }

    fn deserialize_struct<V: Visitor<'t>>(self, _: &'static str, fields: &'static [&'static str], visitor: V) -> Result<V::Value, Boxed> {
        self.inside(fields, visitor)
    }

    fn deserialize_str<V: Visitor<'t>>(self, visitor: V) -> Result<V::Value, Boxed> {
        Simple(self.0.inner_text()?).deserialize_any(visitor)
    }

    fn deserialize_string<V: Visitor<'t>>(self, visitor: V) -> Result<V::Value, Boxed> {
        Simple(self.0.inner_text()?).deserialize_any(visitor)
    }

    fn deserialize_option<V: Visitor<'t>>(self, visitor: V) -> Result<V::Value, Boxed> {
        if self.0.is_nil() {
            self.0.pass()?;
            return visitor.visit_none();
        }
        visitor.visit_some(self)
    }

    fn deserialize_newtype_struct<V: Visitor<'t>>(self, _: &'static str, visitor: V) -> Result<V::Value, Boxed> {
        visitor.visit_newtype_struct(self)
    }

    fn deserialize_seq<V: Visitor<'t>>(self, visitor: V) -> Result<V::Value, Boxed> {
        let first = self.0.start.clone();
        visitor.visit_seq(List { message: self.0, first, begun: false })
    }

    fn deserialize_enum<V: Visitor<'t>>(self, _: &'static str, variants: &'static [&'static str], visitor: V) -> Result<V::Value, Boxed> {
        visitor.visit_enum(Branch { element: self, variants })
    }

    fn deserialize_ignored_any<V: Visitor<'t>>(self, visitor: V) -> Result<V::Value, Boxed> {
        self.0.pass()?;
        visitor.visit_unit()
    }

    forward_to_deserialize_any! {
        <W: Visitor<'t>>
        bool i8 i16 i32 i64 i128 u8 u16 u32 u64 u128 f32 f64 char bytes byte_buf unit unit_struct tuple tuple_struct map identifier
    }
}

/// The value of an attribute, or a text.
struct Simple<'s>(Cow<'s, str>);

impl<'t> Deserializer<'t> for Simple<'_> {
    type Error = Boxed;

    #[inline]
    fn deserialize_any<V: Visitor<'t>>(self, visitor: V) -> Result<V::Value, Boxed> {
        match self.0 {
            Cow::Borrowed(text) => visitor.visit_str(text),
            Cow::Owned(text) => visitor.visit_string(text),
        }
    }

    fn deserialize_option<V: Visitor<'t>>(self, visitor: V) -> Result<V::Value, Boxed> {
        visitor.visit_some(self)
    }

    fn deserialize_newtype_struct<V: Visitor<'t>>(self, _: &'static str, visitor: V) -> Result<V::Value, Boxed> {
        visitor.visit_newtype_struct(self)
    }

    forward_to_deserialize_any! {
        <W: Visitor<'t>>
        bool i8 i16 i32 i64 i128 u8 u16 u32 u64 u128 f32 f64 char str string bytes byte_buf unit unit_struct seq tuple tuple_struct map struct enum
        identifier ignored_any
    }
}

/// What was found inside an element.
enum Found<'s> {
    Attribute(Attribute<'s>),
    Text,
    /// The one whose start was read last.
    Element,
}

/// The inside of an element: its attributes, then what stands up to its end.
struct Inside<'m, 's, 't> {
    message: &'m mut Message<'t>,
    attributes: Option<Attributes<'s>>,
    /// The names that are asked for; none where all are.
    fields: &'static [&'static str],
    /// The field behind the one that was found last.
    expected: usize,
    found: Found<'s>,
}

impl Inside<'_, '_, '_> {
    /// Finds the next attribute, text or element; none at the end.
    fn find(&mut self) -> Result<bool, Boxed> {
        if let Some(attribute) = self.attributes.as_mut().and_then(Iterator::next) {
            self.found = Found::Attribute(attribute.map_err(Error::InvalidAttr)?);
            return Ok(true);
        }
        loop {
            self.found = match self.message.next()? {
                Part::Start => Found::Element,
                Part::Text if is_blank(&self.message.text) => continue,
                Part::Text => Found::Text,
                Part::End => return Ok(false),
                Part::Eof => return Err(self.message.no_end()),
            };
            return Ok(true);
        }
    }

    /// The number of the field that was found.
    fn field(&mut self) -> Option<usize> {
        let at = match &self.found {
            Found::Element => {
                let name = self.message.start.local_name().into_inner();
                self.field_that(|field| field.as_bytes() == name)
            }
            Found::Text => self.field_that(|field| field == "$text"),
            Found::Attribute(attribute) => {
                let name = attribute_name(attribute.key);
                self.field_that(|field| field.as_bytes().strip_prefix(b"@") == Some(name))
            }
        }?;
        self.expected = at + 1;
        Some(at)
    }

    /// Fields mostly come in their order.
    fn field_that(&self, is: impl Fn(&str) -> bool) -> Option<usize> {
        let (before, behind) = self.fields.split_at_checked(self.expected)?;
        match behind.iter().position(|field| is(field)) {
            Some(at) => Some(self.expected + at),
            None => before.iter().position(|field| is(field)),
        }
    }

    /// The name of what was found.
    fn name(&self) -> String {
        match &self.found {
            Found::Element => String::from_utf8_lossy(self.message.start.local_name().into_inner()).into_owned(),
            Found::Text => "$text".to_owned(),
            Found::Attribute(attribute) => format!("@{}", String::from_utf8_lossy(attribute_name(attribute.key))),
        }
    }
}

/// The local name of an attribute; the whole one where it declares a namespace, or is one of XML itself.
fn attribute_name(key: QName<'_>) -> &[u8] {
    match key.as_namespace_binding().is_some() || key.prefix().is_some_and(|prefix| prefix.is_xml()) {
        true => key.into_inner(),
        false => key.local_name().into_inner(),
    }
}

/// The field or variant of this number.
fn numbered<'t, K: DeserializeSeed<'t>>(seed: K, number: usize) -> Result<K::Value, Boxed> {
    seed.deserialize(U64Deserializer::new(number as u64))
}

impl<'t> MapAccess<'t> for Inside<'_, '_, 't> {
    type Error = Boxed;

    fn next_key_seed<K: DeserializeSeed<'t>>(&mut self, seed: K) -> Result<Option<K::Value>, Boxed> {
        while self.find()? {
            let number = match (self.fields, &self.found) {
                ([], _) => return seed.deserialize(self.name().into_deserializer()).map(Some),
                (VALUE, Found::Element) => Some(0),
                (VALUE, Found::Text) => return Err(de::Error::custom("a text stands where one of some elements is expected")),
                _ => self.field(),
            };
            match (number, &self.found) {
                (Some(number), _) => return numbered(seed, number).map(Some),
                (None, Found::Element) => self.message.pass()?,
                (None, _) => {}
            }
        }
        Ok(None)
    }

    fn next_value_seed<T: DeserializeSeed<'t>>(&mut self, seed: T) -> Result<T::Value, Boxed> {
        match mem::replace(&mut self.found, Found::Element) {
            Found::Element => seed.deserialize(Element(self.message)),
            Found::Text => seed.deserialize(Simple(mem::take(&mut self.message.text))),
            Found::Attribute(attribute) => seed.deserialize(Simple(attribute.unescape_value()?)),
        }
    }
}

/// Elements of one name behind one another.
struct List<'m, 't> {
    message: &'m mut Message<'t>,
    first: BytesStart<'t>,
    begun: bool,
}

impl List<'_, '_> {
    /// There is one more element.
    fn more(&mut self) -> Result<bool, Boxed> {
        if !self.begun {
            self.begun = true;
            return Ok(true);
        }
        loop {
            match self.message.next()? {
                Part::Start if self.message.start.name() == self.first.name() => return Ok(true),
                Part::Text if is_blank(&self.message.text) => {}
                // No field takes a text beside a list.
                Part::Text => return Ok(false),
                part => {
                    self.message.behind = Some(part);
                    return Ok(false);
                }
            }
        }
    }
}

impl<'t> SeqAccess<'t> for List<'_, 't> {
    type Error = Boxed;

    fn next_element_seed<T: DeserializeSeed<'t>>(&mut self, seed: T) -> Result<Option<T::Value>, Boxed> {
        match self.more()? {
            true => seed.deserialize(Element(self.message)).map(Some),
            false => Ok(None),
        }
    }
}

/// The element of a choice.
struct Branch<'m, 't> {
    element: Element<'m, 't>,
    variants: &'static [&'static str],
}

impl<'m, 't> EnumAccess<'t> for Branch<'m, 't> {
    type Error = Boxed;
    type Variant = Element<'m, 't>;

    fn variant_seed<V: DeserializeSeed<'t>>(self, seed: V) -> Result<(V::Value, Element<'m, 't>), Boxed> {
        let name = self.element.0.start.local_name().into_inner();
        match self.variants.iter().position(|variant| variant.as_bytes() == name) {
            Some(number) => Ok((numbered(seed, number)?, self.element)),
            None => Err(de::Error::unknown_variant(&String::from_utf8_lossy(name), self.variants)),
        }
    }
}

impl<'t> VariantAccess<'t> for Element<'_, 't> {
    type Error = Boxed;

    fn unit_variant(self) -> Result<(), Boxed> {
        self.0.pass()
    }

    fn newtype_variant_seed<T: DeserializeSeed<'t>>(self, seed: T) -> Result<T::Value, Boxed> {
        seed.deserialize(self)
    }

    fn tuple_variant<V: Visitor<'t>>(self, _: usize, visitor: V) -> Result<V::Value, Boxed> {
        self.deserialize_any(visitor)
    }

    fn struct_variant<V: Visitor<'t>>(self, fields: &'static [&'static str], visitor: V) -> Result<V::Value, Boxed> {
        self.inside(fields, visitor)
    }
}
