//! The graph for reading: a type for each paragraph.

use std::fmt::Write;

use lubiksan::{Graph, TypeDef};

use super::{facet_words, with_cardinality, word_of, xml_names};
use crate::failure::{escaped, named, quoted};
use crate::notkept::Notes;
use crate::origins::{Origin, Origins};

/// The text of a graph, with the place of each root and type where it is known, and comments on what is not kept.
pub fn print(graph: &Graph<'_>, origins: &Origins<'_>, notes: &Notes<'_>) -> String {
    let mut out = String::new();
    let _ = writeln!(out, "namespace {}", escaped(graph.namespace()));
    for root in graph.roots() {
        let _ = writeln!(
            out,
            "root {}: {}{}",
            escaped(root.xml_name),
            escaped(root.type_name),
            place(origins.at(root.event()))
        );
    }
    for found in graph.types() {
        paragraph(&mut out, &found, &place(origins.at(found.event())), notes);
    }
    out
}

fn paragraph(out: &mut String, found: &TypeDef<'_>, place: &str, notes: &Notes<'_>) {
    let _ = writeln!(
        out,
        "\n{} {}{}{place}",
        word_of(found),
        escaped(found.name()),
        behind_name(found)
    );
    for note in notes.of_type(found.name(), &xml_names(found)) {
        let _ = writeln!(out, "    // {note}");
    }
    put_lines(out, &children(found, notes));
}

/// ` at FILE:LINE`
fn place(origin: Option<Origin<'_>>) -> String {
    origin.map_or(String::new(), |Origin { file, line }| {
        format!(" at {}:{line}", named(file))
    })
}

/// What stands behind the name of a type.
fn behind_name(found: &TypeDef<'_>) -> String {
    match found {
        TypeDef::Newtype(it) => format!("({})", it.inner()),
        TypeDef::Value(it) => format!(": {}", escaped(&it.value().to_string())),
        TypeDef::Opaque(it) => it.namespace().map_or(String::new(), |name| {
            format!(", namespace {}", quoted(name))
        }),
        _ => String::new(),
    }
}

/// A line for each child, in columns.
fn children(found: &TypeDef<'_>, notes: &Notes<'_>) -> Vec<[String; 3]> {
    let noted = |xml: &str, kind: String| {
        let notes = notes.of_field(found.name(), xml);
        match notes.is_empty() {
            true => kind,
            false => format!("{kind}  // {}", notes.join("; ")),
        }
    };
    match found {
        TypeDef::Struct(it) => it
            .fields()
            .map(|f| three(f.rust_name, f.xml_name, noted(f.xml_name, field_type(&f))))
            .collect(),
        TypeDef::Choice(it) => it
            .variants()
            .map(|v| {
                let kind = noted(v.xml_name, v.type_ref.to_string());
                three(v.rust_name, v.xml_name, kind)
            })
            .collect(),
        TypeDef::CodeList(it) => it
            .codes()
            .map(|c| three(c.rust_name, &quoted(c.xml_value), String::new()))
            .collect(),
        TypeDef::Newtype(it) => it
            .facets()
            .map(|f| three(&facet_words(&f), "", String::new()))
            .collect(),
        TypeDef::Value(it) => it
            .attributes()
            .map(|a| {
                three(
                    a.rust_name,
                    a.xml_name,
                    noted(a.xml_name, attribute_type(&a)),
                )
            })
            .collect(),
        TypeDef::Opaque(_) => Vec::new(),
    }
}

fn three(rust: &str, xml: &str, kind: String) -> [String; 3] {
    [escaped(rust), escaped(xml), escaped(&kind)]
}

fn field_type(field: &lubiksan::Field<'_>) -> String {
    with_cardinality(&field.type_ref.to_string(), field.cardinality)
}

fn attribute_type(attribute: &lubiksan::Attribute<'_>) -> String {
    match attribute.required {
        true => attribute.type_ref.to_string(),
        false => format!("Option<{}>", attribute.type_ref),
    }
}

/// Lines with columns of one width in the paragraph.
fn put_lines(out: &mut String, lines: &[[String; 3]]) {
    let first = lines
        .iter()
        .map(|[rust, _, _]| rust.chars().count())
        .max()
        .unwrap_or(0);
    let second = lines
        .iter()
        .map(|[_, xml, _]| xml.chars().count())
        .max()
        .unwrap_or(0);
    for [rust, xml, kind] in lines {
        let line = format!("    {rust:first$}  {xml:second$}  {kind}");
        let _ = writeln!(out, "{}", line.trim_end());
    }
}
