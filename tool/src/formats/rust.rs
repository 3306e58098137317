//! The graph as Rust source that compiles by itself.

use std::collections::HashMap;
use std::fmt::Write;

use lubiksan::names::normalize_type_name;
use lubiksan::{
    Attribute, Builtin, Cardinality, Facet, Field, Graph, Kind, SchemaSheet, TypeDef, TypeRef,
    Variant,
};

use super::{facet_words, xml_names};
use crate::failure::escaped;
use crate::formats::rust::boxes::Boxes;
use crate::identifier::{identifier, spelled};
use crate::notkept::Notes;
use crate::patterns;

mod boxes;

const STRING: &str = "::std::string::String";

/// The source of a graph, with comments on what is not kept; the sheet, where it is at hand, has the types' names as in XML. The names
/// do not meet (see [`crate::names`]).
pub fn print(sheet: Option<&SchemaSheet<'_>>, graph: &Graph<'_>, notes: &Notes<'_>) -> String {
    let mut out = head(graph);
    let boxes = Boxes::of(graph);
    let names: HashMap<String, &str> = sheet
        .into_iter()
        .flat_map(SchemaSheet::declared)
        .filter(|declared| declared.kind != Kind::Element)
        .map(|declared| (normalize_type_name(declared.name), declared.name))
        .collect();
    for found in graph.types() {
        let writer = Writer {
            boxes: &boxes,
            owner: found.name(),
            xml_name: names.get(found.name()).copied().unwrap_or(found.name()),
            notes,
        };
        writer.put_type(&mut out, &found);
    }
    out
}

fn head(graph: &Graph<'_>) -> String {
    let mut out = format!(
        "//! The types of the namespace `{}`.\n",
        escaped(graph.namespace())
    );
    for root in graph.roots() {
        let (name, kind) = (escaped(root.xml_name), escaped(root.type_name));
        let _ = writeln!(out, "//!\n//! Root element `{name}` of type `{kind}`.");
    }
    out.push_str("\n#![allow(non_camel_case_types, non_snake_case, clippy::all)]\n");
    out
}

/// Writes the parts of one type.
struct Writer<'g> {
    boxes: &'g Boxes<'g>,
    owner: &'g str,
    xml_name: &'g str,
    notes: &'g Notes<'g>,
}

impl Writer<'_> {
    fn put_type(&self, out: &mut String, found: &TypeDef<'_>) {
        let _ = writeln!(
            out,
            "\n{}",
            doc(
                "",
                &format!("`{}`: {}.", escaped(self.xml_name), what(found))
            )
        );
        put_facets(out, found);
        for note in self.notes.of_type(found.name(), &xml_names(found)) {
            let _ = writeln!(out, "// {note}");
        }
        for note in patterns::notes(found) {
            let _ = writeln!(out, "// {note}");
        }
        out.push_str("#[derive(Clone, Debug, PartialEq)]\n");
        let name = spelled(found.name());
        let body = match found {
            TypeDef::Struct(it) => format!(
                "struct {name} {{\n{}}}",
                self.lines(it.fields(), Writer::field)
            ),
            TypeDef::Choice(it) => format!(
                "enum {name} {{\n{}}}",
                self.lines(it.variants(), Writer::variant)
            ),
            TypeDef::CodeList(it) => {
                format!("enum {name} {{\n{}}}", self.lines(it.codes(), Writer::code))
            }
            TypeDef::Newtype(it) => format!("struct {name}(pub {});", builtin(it.inner())),
            TypeDef::Value(it) => format!("struct {name} {{\n{}}}", self.value(it)),
            TypeDef::Opaque(_) => format!("struct {name}(pub {STRING});"),
        };
        let _ = writeln!(out, "pub {body}");
    }

    fn lines<T>(&self, items: impl Iterator<Item = T>, line: fn(&Self, T) -> String) -> String {
        items.map(|item| line(self, item)).collect()
    }

    fn field(&self, field: Field<'_>) -> String {
        let kind = self.reference(field.type_ref, field.cardinality);
        let most = match field.cardinality {
            Cardinality::Bounded(most) => format!(", at most {most}"),
            _ => String::new(),
        };
        let about = format!(
            "`{}`{}{most}",
            escaped(field.xml_name),
            written(field.type_ref)
        );
        format!(
            "{}\n{}    pub {}: {kind},\n",
            doc("    ", &about),
            self.noted(field.xml_name),
            spelled(field.rust_name)
        )
    }

    fn variant(&self, variant: Variant<'_>) -> String {
        let kind = self.reference(variant.type_ref, Cardinality::Required);
        let about = format!(
            "`{}`{}",
            escaped(variant.xml_name),
            written(variant.type_ref)
        );
        format!(
            "{}\n{}    {}({kind}),\n",
            doc("    ", &about),
            self.noted(variant.xml_name),
            spelled(variant.rust_name)
        )
    }

    fn code(&self, code: lubiksan::Code<'_>) -> String {
        let about = format!("`{}`", escaped(code.xml_value));
        format!(
            "{}\n    {},\n",
            doc("    ", &about),
            spelled(code.rust_name)
        )
    }

    fn value(&self, value: &lubiksan::Value<'_>) -> String {
        let kind = self.reference(value.value(), Cardinality::Required);
        let about = format!("The text inside{}", written(value.value()));
        let first = format!(
            "{}\n    pub {}: {kind},\n",
            doc("    ", &about),
            value_field(value)
        );
        first + &self.lines(value.attributes(), Writer::attribute)
    }

    fn attribute(&self, attribute: Attribute<'_>) -> String {
        let cardinality = match attribute.required {
            true => Cardinality::Required,
            false => Cardinality::Optional,
        };
        let kind = self.reference(attribute.type_ref, cardinality);
        let about = format!(
            "The attribute `{}`{}",
            escaped(attribute.xml_name),
            written(attribute.type_ref)
        );
        format!(
            "{}\n{}    pub {}: {kind},\n",
            doc("    ", &about),
            self.noted(attribute.xml_name),
            spelled(attribute.rust_name)
        )
    }

    /// The comments on a field, a line each.
    fn noted(&self, xml: &str) -> String {
        let notes = self.notes.of_field(self.owner, xml);
        notes
            .iter()
            .map(|note| format!("    // {note}\n"))
            .collect()
    }

    /// A type with its cardinality, by full paths, behind a box where it would hold itself.
    fn reference(&self, reference: TypeRef<'_>, cardinality: Cardinality) -> String {
        let many = matches!(cardinality, Cardinality::Vec | Cardinality::Bounded(_));
        let kind = match reference {
            TypeRef::Builtin(kind) => builtin(kind).to_owned(),
            TypeRef::Named(name) if !many && self.boxes.needed(self.owner, name) => {
                format!("::std::boxed::Box<{}>", spelled(name))
            }
            TypeRef::Named(name) => spelled(name),
        };
        match cardinality {
            Cardinality::Required => kind,
            Cardinality::Optional => format!("::std::option::Option<{kind}>"),
            Cardinality::Vec | Cardinality::Bounded(_) => format!("::std::vec::Vec<{kind}>"),
        }
    }
}

/// The field for the text of a value: `value`, with `_` behind it where an attribute has that name.
fn value_field(value: &lubiksan::Value<'_>) -> String {
    let mut name = "value".to_owned();
    while value
        .attributes()
        .any(|attribute| identifier(attribute.rust_name) == name)
    {
        name.push('_');
    }
    name
}

fn builtin(kind: Builtin) -> &'static str {
    match kind {
        Builtin::Bool => "::std::primitive::bool",
        _ => STRING,
    }
}

/// What a built-in type that is kept as text stands for.
fn written(reference: TypeRef<'_>) -> &'static str {
    match reference {
        TypeRef::Builtin(Builtin::Decimal) => ", a decimal number as written",
        TypeRef::Builtin(Builtin::Date) => ", a date as written",
        TypeRef::Builtin(Builtin::DateTime) => ", a date with a time as written",
        _ => "",
    }
}

fn what(found: &TypeDef<'_>) -> String {
    match found {
        TypeDef::Struct(_) => "a sequence".to_owned(),
        TypeDef::Choice(_) => "a choice".to_owned(),
        TypeDef::CodeList(_) => "a list of codes".to_owned(),
        TypeDef::Newtype(it) if it.inner() == Builtin::Bool => "`true` or `false`".to_owned(),
        TypeDef::Newtype(it) => format!("text{}", written(TypeRef::Builtin(it.inner()))),
        TypeDef::Value(_) => "a value with attributes".to_owned(),
        TypeDef::Opaque(it) => match it.namespace() {
            Some(name) => format!(
                "any content of the namespace `{}`, as XML text",
                escaped(name)
            ),
            None => "any content, as XML text".to_owned(),
        },
    }
}

fn put_facets(out: &mut String, found: &TypeDef<'_>) {
    let TypeDef::Newtype(it) = found else {
        return;
    };
    let facets: Vec<Facet<'_>> = it.facets().collect();
    for facet in &facets {
        let _ = writeln!(out, "{}", doc("", &format!("- {}", facet_words(facet))));
    }
}

/// A doc comment of one line.
fn doc(indent: &str, words: &str) -> String {
    format!("{indent}/// {words}")
}
