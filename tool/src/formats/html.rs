//! The graph as one page without anything from outside: the tree from the root, a section for each type, a search.

use std::collections::BTreeMap;
use std::fmt::Write;

use lubiksan::names::{map_builtin, normalize_type_name};
use lubiksan::{Graph, TypeDef, TypeRef};
use serde::ser::SerializeStruct;
use serde::{Serialize, Serializer};

use super::dot::{html, often};
use super::{facet_words, word_of, xml_names};
use crate::failure::{escaped, named};
use crate::notkept::Notes;
use crate::origins::Origins;

const STYLE: &str = include_str!("page/page.css");
const SCRIPT: &str = include_str!("page/page.js");

/// The page of a graph, with the place of each type where it is known, and marks where the graph is not the schema.
///
/// # Errors
///
/// The error of the serializer; a graph has nothing that it refuses.
pub fn print(
    graph: &Graph<'_>,
    origins: &Origins<'_>,
    notes: &Notes<'_>,
) -> Result<String, serde_json::Error> {
    let page = Page::of(graph, origins, notes);
    // `<` in the data would end the script.
    let data = serde_json::to_string(&page)?.replace('<', "\\u003c");
    let roots: Vec<&str> = page.roots.iter().map(|root| root.xml.as_str()).collect();
    let title = format!("{} {}", roots.join(", "), page.namespace);
    let mut out = format!(
        "<!DOCTYPE html>
<html lang=\"en\">
<head>
<meta charset=\"utf-8\">
<meta name=\"viewport\" content=\"width=device-width, initial-scale=1\">
<title>{title}</title>
<style>
{STYLE}</style>
</head>
<body>
<header>
<h1>{title}</h1>
<input id=\"search\" type=\"search\" placeholder=\"a name in XML or Rust, a type, a code\" aria-label=\"search\">
</header>
<main>
<nav>
<div id=\"found\"></div>
<div id=\"tree\"></div>
</nav>
<article>
",
        title = html(title.trim())
    );
    let users = page.users();
    for (number, found) in page.types.iter().enumerate() {
        page.put_section(
            &mut out,
            number,
            found,
            users.get(&number).map(Vec::as_slice).unwrap_or_default(),
        );
    }
    let _ = write!(
        out,
        "</article>\n</main>\n<script id=\"data\" type=\"application/json\">{data}</script>\n<script>\n{SCRIPT}</script>\n</body>\n</html>\n"
    );
    Ok(out)
}

struct Page {
    namespace: String,
    roots: Vec<Field>,
    types: Vec<Type>,
}

struct Type {
    name: String,
    kind: &'static str,
    place: String,
    fields: Vec<Field>,
    /// Facets, codes, or what is inside.
    more: Vec<String>,
    marks: Vec<String>,
}

struct Field {
    xml: String,
    rust: String,
    often: String,
    /// The number of its type; none for a built-in one, or one that is not there.
    of: Option<usize>,
    name: String,
    marks: Vec<String>,
}

impl Page {
    fn of(graph: &Graph<'_>, origins: &Origins<'_>, notes: &Notes<'_>) -> Page {
        let numbers: BTreeMap<&str, usize> = graph
            .types()
            .enumerate()
            .map(|(number, found)| (found.name(), number))
            .collect();
        let number = |name: &str| numbers.get(name).copied();
        let roots = graph.roots().map(|root| {
            let name = normalize_type_name(root.type_name);
            let builtin = map_builtin(root.type_name).is_some();
            Field {
                xml: root.xml_name.to_owned(),
                rust: String::new(),
                often: "root".to_owned(),
                of: number(&name).filter(|_| !builtin),
                name,
                marks: Vec::new(),
            }
        });
        let types = graph.types().map(|found| Type {
            name: found.name().to_owned(),
            kind: word_of(&found),
            place: origins.at(found.event()).map_or(String::new(), |origin| {
                format!("{}:{}", named(origin.file), origin.line)
            }),
            fields: fields(&found, &number, notes),
            more: more(&found),
            marks: notes
                .of_type(found.name(), &xml_names(&found))
                .into_iter()
                .map(str::to_owned)
                .collect(),
        });
        Page {
            namespace: graph.namespace().to_owned(),
            roots: roots.collect(),
            types: types.collect(),
        }
    }

    /// For each type the fields that have it: the type's number and the field's name.
    fn users(&self) -> BTreeMap<usize, Vec<(usize, &str)>> {
        let mut users: BTreeMap<usize, Vec<(usize, &str)>> = BTreeMap::new();
        for (number, found) in self.types.iter().enumerate() {
            for field in &found.fields {
                if let Some(of) = field.of {
                    users.entry(of).or_default().push((number, &field.xml));
                }
            }
        }
        users
    }

    fn put_section(&self, out: &mut String, number: usize, found: &Type, users: &[(usize, &str)]) {
        let _ = writeln!(
            out,
            "<section id=\"t{number}\" class=\"{}\">\n<h2>{} <span class=\"kind\">{}</span> <span class=\"line\">{}</span></h2>",
            found.kind,
            html(&found.name),
            found.kind,
            html(&found.place)
        );
        for mark in &found.marks {
            let _ = writeln!(out, "<p class=\"mark\">&#9888; {}</p>", html(mark));
        }
        self.put_fields(out, found);
        if !found.more.is_empty() {
            let items: String = found
                .more
                .iter()
                .map(|text| format!("<li>{}</li>", html(text)))
                .collect();
            let _ = writeln!(out, "<ul>{items}</ul>");
        }
        if !users.is_empty() {
            let links: Vec<String> = users
                .iter()
                .map(|(user, field)| self.link(*user, field))
                .collect();
            let _ = writeln!(out, "<p class=\"back\">in {}</p>", links.join(", "));
        }
        out.push_str("</section>\n");
    }

    fn link(&self, number: usize, field: &str) -> String {
        let name = self
            .types
            .get(number)
            .map_or("", |found| found.name.as_str());
        format!("<a href=\"#t{number}\">{}</a>.{}", html(name), html(field))
    }

    fn put_fields(&self, out: &mut String, found: &Type) {
        if found.fields.is_empty() {
            return;
        }
        out.push_str(
            "<table>\n<tr><th>XML</th><th>Rust</th><th>how often</th><th>type</th></tr>\n",
        );
        for field in &found.fields {
            let kind = match field.of {
                Some(number) => format!("<a href=\"#t{number}\">{}</a>", html(&field.name)),
                None => html(&field.name),
            };
            let marks: String = field
                .marks
                .iter()
                .map(|mark| format!(" <span class=\"mark\">&#9888; {}</span>", html(mark)))
                .collect();
            let _ = writeln!(
                out,
                "<tr><td class=\"xml\">{}</td><td class=\"rust\">{}</td><td>{}</td><td>{kind}{marks}</td></tr>",
                html(&field.xml),
                html(&field.rust),
                html(&field.often)
            );
        }
        out.push_str("</table>\n");
    }
}

/// The fields, variants or attributes of a type.
fn fields(
    found: &TypeDef<'_>,
    number: &impl Fn(&str) -> Option<usize>,
    notes: &Notes<'_>,
) -> Vec<Field> {
    let marks = |xml: &str| -> Vec<String> {
        notes
            .of_field(found.name(), xml)
            .into_iter()
            .map(str::to_owned)
            .collect()
    };
    let field = |xml: &str, rust: &str, often: String, reference: TypeRef<'_>| Field {
        xml: xml.to_owned(),
        rust: rust.to_owned(),
        often,
        of: match reference {
            TypeRef::Named(name) => number(name),
            TypeRef::Builtin(_) => None,
        },
        name: reference.to_string(),
        marks: marks(xml),
    };
    match found {
        TypeDef::Struct(it) => it
            .fields()
            .map(|f| field(f.xml_name, f.rust_name, often(f.cardinality), f.type_ref))
            .collect(),
        TypeDef::Choice(it) => it
            .variants()
            .map(|v| field(v.xml_name, v.rust_name, "one of".to_owned(), v.type_ref))
            .collect(),
        TypeDef::Value(it) => {
            let attribute = |a: lubiksan::Attribute<'_>| {
                let often = if a.required { "1" } else { "0..1" };
                let made = field(a.xml_name, a.rust_name, often.to_owned(), a.type_ref);
                Field {
                    xml: format!("@{}", a.xml_name),
                    ..made
                }
            };
            let text = std::iter::once(field("text", "value", "1".to_owned(), it.value()));
            text.chain(it.attributes().map(attribute)).collect()
        }
        TypeDef::CodeList(_) | TypeDef::Newtype(_) | TypeDef::Opaque(_) => Vec::new(),
    }
}

/// What a type has beside fields.
fn more(found: &TypeDef<'_>) -> Vec<String> {
    match found {
        TypeDef::Newtype(it) => {
            let facets = it.facets().map(|facet| facet_words(&facet));
            std::iter::once(it.inner().name().to_owned())
                .chain(facets)
                .collect()
        }
        TypeDef::CodeList(it) => it.codes().map(|code| escaped(code.xml_value)).collect(),
        TypeDef::Opaque(it) => vec![it.namespace().map_or("any content".to_owned(), |name| {
            format!("any content of {}", escaped(name))
        })],
        TypeDef::Struct(_) | TypeDef::Choice(_) | TypeDef::Value(_) => Vec::new(),
    }
}

impl Serialize for Page {
    fn serialize<S: Serializer>(&self, out: S) -> Result<S::Ok, S::Error> {
        let mut out = out.serialize_struct("page", 2)?;
        out.serialize_field("roots", &self.roots)?;
        out.serialize_field("types", &self.types)?;
        out.end()
    }
}

impl Serialize for Type {
    fn serialize<S: Serializer>(&self, out: S) -> Result<S::Ok, S::Error> {
        let mut out = out.serialize_struct("type", 4)?;
        out.serialize_field("name", &self.name)?;
        out.serialize_field("kind", self.kind)?;
        out.serialize_field("fields", &self.fields)?;
        out.serialize_field("more", &self.more)?;
        out.end()
    }
}

impl Serialize for Field {
    fn serialize<S: Serializer>(&self, out: S) -> Result<S::Ok, S::Error> {
        let mut out = out.serialize_struct("field", 6)?;
        out.serialize_field("xml", &self.xml)?;
        out.serialize_field("rust", &self.rust)?;
        out.serialize_field("often", &self.often)?;
        out.serialize_field("type", &self.of)?;
        out.serialize_field("name", &self.name)?;
        out.serialize_field("marks", &self.marks)?;
        out.end()
    }
}
