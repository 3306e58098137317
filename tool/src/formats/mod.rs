//! The formats of a graph.

pub mod dot;
pub mod dot_all;
pub mod html;
pub mod json;
pub mod rows;
pub mod rust;
pub mod text;

use lubiksan::{Cardinality, Facet, TypeDef};

/// What a type is called in text and dot.
pub(crate) fn word_of(found: &TypeDef<'_>) -> &'static str {
    match found {
        TypeDef::Struct(_) => "struct",
        TypeDef::Choice(_) => "choice",
        TypeDef::CodeList(_) => "codes",
        TypeDef::Newtype(_) => "newtype",
        TypeDef::Value(_) => "value",
        TypeDef::Opaque(_) => "opaque",
    }
}

/// The names of a type's fields, variants or attributes as the schema spells them.
pub(crate) fn xml_names<'g>(found: &TypeDef<'g>) -> Vec<&'g str> {
    match found {
        TypeDef::Struct(it) => it.fields().map(|field| field.xml_name).collect(),
        TypeDef::Choice(it) => it.variants().map(|variant| variant.xml_name).collect(),
        TypeDef::Value(it) => it.attributes().map(|found| found.xml_name).collect(),
        TypeDef::CodeList(_) | TypeDef::Newtype(_) | TypeDef::Opaque(_) => Vec::new(),
    }
}

/// A type with its cardinality in Rust's spelling.
pub(crate) fn with_cardinality(name: &str, cardinality: Cardinality) -> String {
    match cardinality {
        Cardinality::Required => name.to_owned(),
        Cardinality::Optional => format!("Option<{name}>"),
        Cardinality::Vec => format!("Vec<{name}>"),
        Cardinality::Bounded(most) => format!("Vec<{name}>, at most {most}"),
    }
}

/// A facet in words, on one line.
pub(crate) fn facet_words(facet: &Facet<'_>) -> String {
    let name = facet.name();
    match facet {
        Facet::Pattern(text) | Facet::MinInclusive(text) | Facet::MaxInclusive(text) => {
            format!("{name} {}", crate::failure::escaped(text))
        }
        Facet::MinLength(count) | Facet::MaxLength(count) => {
            format!("{name} {} {}", count.0, plural(count.0, "character"))
        }
        Facet::TotalDigits(count) | Facet::FractionDigits(count) => {
            format!("{name} {} {}", count.0, plural(u64::from(count.0), "digit"))
        }
    }
}

/// The word for so many.
pub(crate) fn plural(count: u64, word: &str) -> String {
    match count {
        1 => word.to_owned(),
        _ => format!("{word}s"),
    }
}
