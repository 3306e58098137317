//! What `diff` compares of a schema: its roots and types, each with its place.

use std::collections::BTreeMap;
use std::path::{Path, PathBuf};

use lubiksan::names::{map_builtin, normalize_type_name};
use lubiksan::{Cardinality, Facet, Graph, TypeDef, TypeRef};

use crate::bindings::{Check, Field, Group, Kind, Many, Part, Rest, Schema, Type};
use crate::identifier::spelled;

/// A schema.
#[derive(Debug, Default)]
pub struct Shape {
    /// The file as it was given, or its path from another file.
    pub path: PathBuf,
    pub namespace: String,
    pub roots: Vec<Piece>,
    /// The types by their Rust names.
    pub types: BTreeMap<String, TypeShape>,
    /// What stands beside these, by its text.
    pub rest: Vec<RestShape>,
}

/// What is compared by its text, and the types in it.
#[derive(Debug)]
pub struct RestShape {
    /// What it is, by its tag or attribute.
    pub name: String,
    pub text: String,
    pub types: Vec<String>,
    pub line: usize,
}

/// A root, or a part of a type.
#[derive(Clone, Debug, PartialEq, Eq)]
pub struct Piece {
    pub xml: String,
    /// The name of its type.
    pub holds: String,
    pub least: u32,
    /// None where there is no bound.
    pub most: Option<u32>,
    /// The same in the group around it.
    pub inside: (u32, Option<u32>),
    pub line: Option<usize>,
}

/// A type.
#[derive(Debug, Default)]
pub struct TypeShape {
    /// The name as the schema spells it, where that is known.
    pub xml: String,
    pub line: Option<usize>,
    /// What it is: two of one kind are compared part by part.
    pub kind: String,
    /// Elements and, with `@` before the name, attributes; `` is the text of a value.
    pub parts: Vec<Piece>,
    /// How its elements stand together.
    pub groups: Option<Groups>,
    pub codes: Vec<String>,
    pub facets: Vec<(String, String)>,
    /// It stands inside an element and has no name.
    pub inner: bool,
    /// All else, by its text.
    pub rest: Vec<RestShape>,
}

/// Elements by name, and groups of them.
#[derive(Clone, Debug, PartialEq, Eq)]
pub enum Groups {
    Element(String),
    /// In this order; `false` where all may be missing.
    Sequence(bool, Vec<Groups>),
    /// One of them; `false` where none may be there.
    Choice(bool, Vec<Groups>),
}

impl Groups {
    /// With the elements of these names alone; a group of one part is that part.
    pub fn of_names(&self, names: &[&str]) -> Option<Groups> {
        let (choice, required, parts) = match self {
            Groups::Element(name) => return names.contains(&name.as_str()).then(|| self.clone()),
            Groups::Sequence(required, parts) => (false, *required, parts),
            Groups::Choice(required, parts) => (true, *required, parts),
        };
        let mut kept: Vec<Groups> = parts
            .iter()
            .filter_map(|part| part.of_names(names))
            .collect();
        match (kept.len(), choice) {
            (0, _) => None,
            (1, _) if required => kept.pop(),
            (_, true) => Some(Groups::Choice(required, kept)),
            (_, false) => Some(Groups::Sequence(required, kept)),
        }
    }
}

impl std::fmt::Display for Groups {
    fn fmt(&self, f: &mut std::fmt::Formatter<'_>) -> std::fmt::Result {
        let (word, required, parts) = match self {
            Groups::Element(name) => return f.write_str(name),
            Groups::Sequence(required, parts) => ("all of", *required, parts),
            Groups::Choice(required, parts) => ("one of", *required, parts),
        };
        let parts: Vec<String> = parts.iter().map(Groups::to_string).collect();
        let or_none = if required { "" } else { " or nothing" };
        write!(f, "{word} ({}){or_none}", parts.join(", "))
    }
}

impl Shape {
    /// The shape of a schema whose tags are at hand.
    pub fn of_schema(file: &Path, schema: &Schema) -> Shape {
        let roots = schema.roots.iter().map(|root| Piece {
            xml: root.xml.clone(),
            holds: root.holds.clone(),
            least: 1,
            most: Some(1),
            inside: (1, Some(1)),
            line: Some(root.line),
        });
        let types = schema.types.iter().filter(|found| found.line.is_some());
        let of = |found: &Type| TypeShape {
            rest: rest(schema, Some(&found.rust)),
            ..of_type(found)
        };
        Shape {
            path: file.to_owned(),
            namespace: schema.namespace.clone(),
            roots: roots.collect(),
            types: types.map(|found| (found.rust.clone(), of(found))).collect(),
            rest: rest(schema, None),
        }
    }

    /// The shape of a graph alone.
    pub fn of_graph(file: &Path, graph: &Graph<'_>) -> Shape {
        let roots = graph.roots().map(|root| Piece {
            xml: root.xml_name.to_owned(),
            holds: named(root.type_name),
            least: 1,
            most: Some(1),
            inside: (1, Some(1)),
            line: None,
        });
        Shape {
            path: file.to_owned(),
            namespace: graph.namespace().to_owned(),
            roots: roots.collect(),
            types: graph
                .types()
                .map(|found| (spelled(found.name()), of_typedef(&found)))
                .collect(),
            rest: Vec::new(),
        }
    }
}

/// What of a type, or beside all types, is compared by its text.
fn rest(schema: &Schema, owner: Option<&String>) -> Vec<RestShape> {
    let rest = schema.rest.iter();
    let rest = rest.filter(|rest| rest.owner.as_ref() == owner);
    let shape = |rest: &Rest| RestShape {
        name: rest.name.clone(),
        text: rest.text.clone(),
        types: rest.types.clone(),
        line: rest.line,
    };
    rest.map(shape).collect()
}

/// The name of a root's type.
fn named(name: &str) -> String {
    match map_builtin(name) {
        Some(_) => name.to_owned(),
        None => spelled(&normalize_type_name(name)),
    }
}

fn of_type(found: &Type) -> TypeShape {
    let mut shape = TypeShape {
        xml: found.xml.clone(),
        line: found.line,
        inner: found.inner,
        ..TypeShape::default()
    };
    match &found.kind {
        Kind::Struct(fields, group) => {
            shape.kind = "elements".to_owned();
            shape.parts = fields.iter().map(|field| part(field, "", false)).collect();
            shape.groups = Some(groups(group, fields));
        }
        Kind::Choice(fields) => {
            shape.kind = "elements".to_owned();
            shape.parts = fields.iter().map(|field| part(field, "", true)).collect();
            let names = fields
                .iter()
                .map(|field| Groups::Element(field.xml.clone()));
            shape.groups = Some(Groups::Choice(true, names.collect()));
        }
        Kind::Codes(codes) => {
            shape.kind = "codes".to_owned();
            shape.codes = codes.iter().map(|code| code.xml.clone()).collect();
        }
        Kind::Text(rules) => {
            shape.kind = format!("text of {}", rules.base);
            shape.facets = rules
                .facets
                .iter()
                .filter(|facet| !facet.words.is_empty())
                .map(facet_of)
                .collect();
            let unchecked = rules.unchecked.iter().map(|words| split(words));
            shape.facets.extend(unchecked);
        }
        Kind::Boolean => shape.kind = "true or false".to_owned(),
        Kind::Value(text, attributes) => {
            shape.kind = "text with attributes".to_owned();
            shape.parts = attributes
                .iter()
                .map(|field| part(field, "@", false))
                .collect();
            shape.parts.push(part(text, "", false));
        }
        Kind::Any => shape.kind = "any content".to_owned(),
    }
    shape
}

fn facet_of(facet: &crate::bindings::Facet) -> (String, String) {
    match &facet.check {
        Check::Pattern(_, shown) => ("pattern".to_owned(), shown.clone()),
        Check::OneOf(texts) => ("enumeration".to_owned(), texts.join(", ")),
        _ => split(&facet.words),
    }
}

fn split(words: &str) -> (String, String) {
    let (name, value) = words.split_once(' ').unwrap_or((words, ""));
    (name.to_owned(), value.to_owned())
}

fn part(field: &Field, mark: &str, in_choice: bool) -> Piece {
    let certain = match field.many {
        Many::One => !in_choice,
        Many::Maybe => false,
        Many::List => field.certain,
    };
    Piece {
        xml: format!("{mark}{}", field.xml),
        holds: field.holds.clone(),
        least: if certain { field.occurs.least } else { 0 },
        most: field.occurs.most,
        inside: (field.inside.least, field.inside.most),
        line: Some(field.line),
    }
}

fn groups(group: &Group, fields: &[Field]) -> Groups {
    let parts = group.parts.iter().filter_map(|part| match part {
        Part::Element(at) => Some(Groups::Element(fields.get(*at)?.xml.clone())),
        Part::Group(inner) => Some(groups(inner, fields)),
    });
    let parts = parts.collect();
    match group.choice {
        true => Groups::Choice(group.required, parts),
        false => Groups::Sequence(group.required, parts),
    }
}

fn of_typedef(found: &TypeDef<'_>) -> TypeShape {
    let (kind, parts) = parts_of(found);
    let elements: Vec<Groups> = parts
        .iter()
        .map(|part| Groups::Element(part.xml.clone()))
        .collect();
    TypeShape {
        xml: found.name().to_owned(),
        line: None,
        kind,
        groups: match found {
            TypeDef::Struct(_) => Some(Groups::Sequence(true, elements)),
            TypeDef::Choice(_) => Some(Groups::Choice(true, elements)),
            _ => None,
        },
        codes: match found {
            TypeDef::CodeList(it) => it.codes().map(|code| code.xml_value.to_owned()).collect(),
            _ => Vec::new(),
        },
        facets: match found {
            TypeDef::Newtype(it) => it
                .facets()
                .map(|facet| (facet.name().to_owned(), value_of(&facet)))
                .collect(),
            _ => Vec::new(),
        },
        parts,
        inner: false,
        rest: Vec::new(),
    }
}

/// What a type of a graph is, and its fields, variants or attributes.
fn parts_of(found: &TypeDef<'_>) -> (String, Vec<Piece>) {
    match found {
        TypeDef::Struct(it) => {
            let parts = it
                .fields()
                .map(|f| piece(f.xml_name, f.type_ref, times(f.cardinality)));
            ("elements".to_owned(), parts.collect())
        }
        TypeDef::Choice(it) => {
            let parts = it
                .variants()
                .map(|v| piece(v.xml_name, v.type_ref, (0, Some(1))));
            ("elements".to_owned(), parts.collect())
        }
        TypeDef::Value(it) => {
            let attribute = |a: lubiksan::Attribute<'_>| {
                piece(
                    &format!("@{}", a.xml_name),
                    a.type_ref,
                    (u32::from(a.required), Some(1)),
                )
            };
            let text = piece("", it.value(), (1, Some(1)));
            (
                "text with attributes".to_owned(),
                it.attributes().map(attribute).chain([text]).collect(),
            )
        }
        TypeDef::CodeList(_) => ("codes".to_owned(), Vec::new()),
        TypeDef::Newtype(it) => (format!("text of {}", it.inner()), Vec::new()),
        TypeDef::Opaque(_) => ("any content".to_owned(), Vec::new()),
    }
}

fn piece(xml: &str, reference: TypeRef<'_>, (least, most): (u32, Option<u32>)) -> Piece {
    Piece {
        xml: xml.to_owned(),
        holds: match reference {
            TypeRef::Named(name) => spelled(name),
            TypeRef::Builtin(builtin) => builtin.name().to_owned(),
        },
        least,
        most,
        inside: (least, most),
        line: None,
    }
}

fn times(cardinality: Cardinality) -> (u32, Option<u32>) {
    match cardinality {
        Cardinality::Required => (1, Some(1)),
        Cardinality::Optional => (0, Some(1)),
        Cardinality::Vec => (0, None),
        Cardinality::Bounded(most) => (0, Some(most)),
    }
}

fn value_of(facet: &Facet<'_>) -> String {
    match facet {
        Facet::Pattern(text) | Facet::MinInclusive(text) | Facet::MaxInclusive(text) => {
            (*text).to_owned()
        }
        Facet::MinLength(count) | Facet::MaxLength(count) => count.0.to_string(),
        Facet::TotalDigits(count) | Facet::FractionDigits(count) => count.0.to_string(),
    }
}
