//! The graph as JSON. docs/GRAPH.md describes the shape.

use lubiksan::{
    Attribute, Cardinality, Code, Facet, Field, Graph, Root, TypeDef, TypeRef, Variant,
};
use serde::ser::SerializeStruct;
use serde::{Serialize, Serializer};

use super::word_of;
use crate::notkept::{NotKept, Place};
use crate::origins::Origins;

/// The version of the shape.
pub const VERSION: u32 = 3;

/// The JSON text of a graph, with the place of each root and type and what the graph does not keep, where these are known.
///
/// # Errors
///
/// The error of the serializer; a graph has nothing that it refuses.
pub fn print(
    graph: &Graph<'_>,
    origins: &Origins<'_>,
    not_kept: Option<&NotKept<'_>>,
) -> Result<String, serde_json::Error> {
    let it = (graph, not_kept);
    let mut text = serde_json::to_string_pretty(&Located { it, origins })?;
    text.push('\n');
    Ok(text)
}

/// Something of a graph, as JSON shows it.
struct Shown<T>(T);

/// Something of a graph with the places of its file.
struct Located<'o, T> {
    it: T,
    origins: &'o Origins<'o>,
}

/// A list of things of a graph.
struct List<T>(Vec<T>);

impl<T: Copy> Serialize for List<T>
where
    Shown<T>: Serialize,
{
    fn serialize<S: Serializer>(&self, out: S) -> Result<S::Ok, S::Error> {
        out.collect_seq(self.0.iter().map(|&item| Shown(item)))
    }
}

impl<'o, T> Located<'o, T> {
    /// All of these with the same places.
    fn list<I>(&self, items: impl Iterator<Item = I>) -> Vec<Located<'o, I>> {
        let origins = self.origins;
        items.map(|it| Located { it, origins }).collect()
    }

    /// The number of an event, its file and its line, each null where it is not known.
    fn put_origin<S: SerializeStruct>(
        &self,
        out: &mut S,
        event: Option<u32>,
    ) -> Result<(), S::Error> {
        let origin = self.origins.at(event);
        let file = origin.map(|origin| origin.file.to_string_lossy());
        out.serialize_field("event", &self.origins.shown(event))?;
        out.serialize_field("file", &file)?;
        out.serialize_field("line", &origin.map(|origin| origin.line))
    }
}

impl Serialize for Located<'_, (&Graph<'_>, Option<&NotKept<'_>>)> {
    fn serialize<S: Serializer>(&self, out: S) -> Result<S::Ok, S::Error> {
        let (graph, not_kept) = self.it;
        let places = not_kept.map(|not_kept| self.list(not_kept.places.iter()));
        let mut out = out.serialize_struct("graph", 5)?;
        out.serialize_field("version", &VERSION)?;
        out.serialize_field("namespace", graph.namespace())?;
        out.serialize_field("roots", &self.list(graph.roots()))?;
        out.serialize_field("types", &self.list(graph.types()))?;
        out.serialize_field("notKept", &places)?;
        out.end()
    }
}

impl Serialize for Located<'_, &Place<'_>> {
    fn serialize<S: Serializer>(&self, out: S) -> Result<S::Ok, S::Error> {
        let origin = self.origins.at(u32::try_from(self.it.event).ok());
        let file = origin.map(|origin| origin.file.to_string_lossy());
        let mut out = out.serialize_struct("place", 6)?;
        out.serialize_field("kind", self.it.kind.name())?;
        out.serialize_field("file", &file)?;
        out.serialize_field("line", &origin.map(|origin| origin.line))?;
        out.serialize_field("type", &self.it.type_name)?;
        out.serialize_field("field", &self.it.fields)?;
        out.serialize_field("words", &self.it.words)?;
        out.end()
    }
}

impl Serialize for Located<'_, Root<'_>> {
    fn serialize<S: Serializer>(&self, out: S) -> Result<S::Ok, S::Error> {
        let mut out = out.serialize_struct("root", 5)?;
        out.serialize_field("xml", self.it.xml_name)?;
        out.serialize_field("type", self.it.type_name)?;
        self.put_origin(&mut out, self.it.event())?;
        out.end()
    }
}

impl Serialize for Located<'_, TypeDef<'_>> {
    fn serialize<S: Serializer>(&self, out: S) -> Result<S::Ok, S::Error> {
        let mut out = out.serialize_struct("type", 7)?;
        out.serialize_field("kind", word_of(&self.it))?;
        out.serialize_field("name", self.it.name())?;
        self.put_origin(&mut out, self.it.event())?;
        match &self.it {
            TypeDef::Struct(it) => out.serialize_field("fields", &List(it.fields().collect()))?,
            TypeDef::Choice(it) => {
                out.serialize_field("variants", &List(it.variants().collect()))?
            }
            TypeDef::CodeList(it) => out.serialize_field("codes", &List(it.codes().collect()))?,
            TypeDef::Newtype(it) => {
                out.serialize_field("inner", it.inner().name())?;
                out.serialize_field("facets", &List(it.facets().collect()))?;
            }
            TypeDef::Value(it) => {
                out.serialize_field("type", &Shown(it.value()))?;
                out.serialize_field("attributes", &List(it.attributes().collect()))?;
            }
            TypeDef::Opaque(it) => out.serialize_field("namespace", &it.namespace())?,
        }
        out.end()
    }
}

impl Serialize for Shown<Field<'_>> {
    fn serialize<S: Serializer>(&self, out: S) -> Result<S::Ok, S::Error> {
        let mut out = out.serialize_struct("field", 4)?;
        out.serialize_field("xml", self.0.xml_name)?;
        out.serialize_field("rust", self.0.rust_name)?;
        out.serialize_field("type", &Shown(self.0.type_ref))?;
        out.serialize_field("cardinality", &Shown(self.0.cardinality))?;
        out.end()
    }
}

impl Serialize for Shown<Variant<'_>> {
    fn serialize<S: Serializer>(&self, out: S) -> Result<S::Ok, S::Error> {
        let mut out = out.serialize_struct("variant", 3)?;
        out.serialize_field("xml", self.0.xml_name)?;
        out.serialize_field("rust", self.0.rust_name)?;
        out.serialize_field("type", &Shown(self.0.type_ref))?;
        out.end()
    }
}

impl Serialize for Shown<Code<'_>> {
    fn serialize<S: Serializer>(&self, out: S) -> Result<S::Ok, S::Error> {
        let mut out = out.serialize_struct("code", 2)?;
        out.serialize_field("xml", self.0.xml_value)?;
        out.serialize_field("rust", self.0.rust_name)?;
        out.end()
    }
}

impl Serialize for Shown<Attribute<'_>> {
    fn serialize<S: Serializer>(&self, out: S) -> Result<S::Ok, S::Error> {
        let mut out = out.serialize_struct("attribute", 4)?;
        out.serialize_field("xml", self.0.xml_name)?;
        out.serialize_field("rust", self.0.rust_name)?;
        out.serialize_field("type", &Shown(self.0.type_ref))?;
        out.serialize_field("required", &self.0.required)?;
        out.end()
    }
}

impl Serialize for Shown<TypeRef<'_>> {
    fn serialize<S: Serializer>(&self, out: S) -> Result<S::Ok, S::Error> {
        let mut out = out.serialize_struct("reference", 1)?;
        match self.0 {
            TypeRef::Named(name) => out.serialize_field("named", name)?,
            TypeRef::Builtin(builtin) => out.serialize_field("builtin", builtin.name())?,
        }
        out.end()
    }
}

impl Serialize for Shown<Cardinality> {
    fn serialize<S: Serializer>(&self, out: S) -> Result<S::Ok, S::Error> {
        let mut out = out.serialize_struct("cardinality", 2)?;
        let kind = match self.0 {
            Cardinality::Required => "required",
            Cardinality::Optional => "optional",
            Cardinality::Vec => "vec",
            Cardinality::Bounded(_) => "bounded",
        };
        out.serialize_field("kind", kind)?;
        if let Cardinality::Bounded(most) = self.0 {
            out.serialize_field("most", &most)?;
        }
        out.end()
    }
}

impl Serialize for Shown<Facet<'_>> {
    fn serialize<S: Serializer>(&self, out: S) -> Result<S::Ok, S::Error> {
        let mut out = out.serialize_struct("facet", 2)?;
        out.serialize_field("facet", self.0.name())?;
        match self.0 {
            Facet::Pattern(text) | Facet::MinInclusive(text) | Facet::MaxInclusive(text) => {
                out.serialize_field("value", text)?;
            }
            Facet::MinLength(count) | Facet::MaxLength(count) => {
                out.serialize_field("characters", &count.0)?
            }
            Facet::TotalDigits(count) | Facet::FractionDigits(count) => {
                out.serialize_field("digits", &count.0)?
            }
        }
        out.end()
    }
}
