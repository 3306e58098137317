//! The graph for Graphviz: a table for each struct, choice, value and opaque type, newtypes and code lists as rows of these, an edge from each field.

use std::collections::{BTreeMap, BTreeSet, VecDeque};
use std::fmt::Write;

use lubiksan::names::{map_builtin, normalize_type_name};
use lubiksan::{Cardinality, Graph, TypeDef, TypeRef};

use super::{facet_words, word_of};
use crate::failure::{escaped, quoted, Failure};

/// Which part of the graph is shown.
#[derive(Clone, Debug, Default, PartialEq, Eq)]
pub struct Part {
    /// From this root element or type on.
    pub root: Option<String>,
    /// So many steps.
    pub depth: Option<usize>,
}

/// The text for `dot`.
///
/// # Errors
///
/// [`Failure::Refused`] where there is no root element or type of the name that is asked for.
pub fn print(graph: &Graph<'_>, part: &Part) -> Result<String, Failure> {
    let types: BTreeMap<&str, (usize, TypeDef<'_>)> = graph
        .types()
        .enumerate()
        .map(|(index, found)| (found.name(), (index, found)))
        .collect();
    let writer = Writer { types };
    let shown = writer.shown(graph, part)?;
    let mut out = String::from(
        "digraph schema {\n    rankdir=LR;\n    node [shape=plain, fontname=\"sans-serif\", fontsize=11];\n    edge [color=\"#777777\"];\n",
    );
    for (index, root) in graph.roots().enumerate() {
        let name = normalize_type_name(root.type_name);
        let asked = part
            .root
            .as_deref()
            .is_none_or(|asked| asked == root.xml_name);
        if !asked || (map_builtin(root.type_name).is_none() && !shown.contains(name.as_str())) {
            continue;
        }
        let _ = writeln!(
            out,
            "    root{index} [shape=oval, style=filled, fillcolor=\"#f4d58d\", label=<{}>];",
            html(root.xml_name)
        );
        if let Some((number, _)) = writer
            .types
            .get(name.as_str())
            .filter(|(_, found)| is_node(found))
        {
            let _ = writeln!(out, "    root{index} -> type{number};");
        }
    }
    for found in graph
        .types()
        .filter(|found| shown.contains(found.name()) && is_node(found))
    {
        writer.put_type(&mut out, &found, &shown);
    }
    out.push_str("}\n");
    Ok(out)
}

/// It has a node of its own.
fn is_node(found: &TypeDef<'_>) -> bool {
    !matches!(found, TypeDef::Newtype(_) | TypeDef::CodeList(_))
}

struct Writer<'g> {
    types: BTreeMap<&'g str, (usize, TypeDef<'g>)>,
}

/// A row: the name, how often, the type.
struct Row<'g> {
    name: String,
    often: String,
    reference: TypeRef<'g>,
}

impl<'g> Writer<'g> {
    /// The names of the types that are shown.
    fn shown(&self, graph: &Graph<'_>, part: &Part) -> Result<BTreeSet<String>, Failure> {
        let Some(asked) = &part.root else {
            let starts = match part.depth {
                Some(_) => graph
                    .roots()
                    .map(|root| normalize_type_name(root.type_name))
                    .collect(),
                None => self.types.keys().map(|name| (*name).to_owned()).collect(),
            };
            return Ok(self.reached(starts, part.depth));
        };
        let root = graph.roots().find(|root| root.xml_name == *asked);
        let start = match root {
            Some(root) => normalize_type_name(root.type_name),
            None => normalize_type_name(asked),
        };
        if root.is_none() && !self.types.contains_key(start.as_str()) {
            let words = format!("there is no root element and no type {}", quoted(asked));
            return Err(Failure::Refused(words));
        }
        Ok(self.reached(vec![start], part.depth))
    }

    fn reached(&self, starts: Vec<String>, depth: Option<usize>) -> BTreeSet<String> {
        let mut shown = BTreeSet::new();
        let mut rest: VecDeque<(String, usize)> =
            starts.into_iter().map(|name| (name, 0)).collect();
        while let Some((name, steps)) = rest.pop_front() {
            let Some((_, found)) = self.types.get(name.as_str()) else {
                continue;
            };
            if shown.insert(name) && depth.is_none_or(|depth| steps < depth) {
                let names = rows(found)
                    .into_iter()
                    .filter_map(|row| match row.reference {
                        TypeRef::Named(name) => Some((name.to_owned(), steps + 1)),
                        TypeRef::Builtin(_) => None,
                    });
                rest.extend(names);
            }
        }
        shown
    }

    fn put_type(&self, out: &mut String, found: &TypeDef<'g>, shown: &BTreeSet<String>) {
        let number = self
            .types
            .get(found.name())
            .map_or(0, |(number, _)| *number);
        let (colour, style) = match found {
            TypeDef::Choice(_) => ("#b7e4c7", " style=\"rounded\""),
            TypeDef::Value(_) => ("#f8edad", ""),
            TypeDef::Opaque(_) => ("#dddddd", " style=\"dashed\""),
            _ => ("#bcd4f0", ""),
        };
        let mut table = format!(
            "<table border=\"1\" cellborder=\"0\" cellspacing=\"0\" cellpadding=\"3\"{style}><tr><td colspan=\"3\" bgcolor=\"{colour}\"><b>{}</b> {}</td></tr>",
            html(found.name()),
            word_of(found)
        );
        let mut edges = String::new();
        for (index, row) in rows(found).iter().enumerate() {
            let _ = write!(
                table,
                "<tr><td align=\"left\">{}</td><td align=\"left\">{}</td><td align=\"left\" port=\"f{index}\">{}</td></tr>",
                html(&row.name),
                html(&row.often),
                html(&self.described(row.reference))
            );
            if let Some(target) = self.target(row.reference, shown) {
                let _ = writeln!(edges, "    type{number}:f{index} -> type{target};");
            }
        }
        let _ = write!(out, "    type{number} [label=<{table}</table>>];\n{edges}");
    }

    /// The node that a row leads to.
    fn target(&self, reference: TypeRef<'_>, shown: &BTreeSet<String>) -> Option<usize> {
        let TypeRef::Named(name) = reference else {
            return None;
        };
        let (number, found) = self.types.get(name)?;
        (is_node(found) && shown.contains(name)).then_some(*number)
    }

    /// A type in a row; a newtype or code list with what it asks.
    fn described(&self, reference: TypeRef<'_>) -> String {
        let TypeRef::Named(name) = reference else {
            return reference.to_string();
        };
        let more = match self.types.get(name) {
            Some((_, TypeDef::Newtype(it))) => {
                let facets = it.facets().map(|facet| facet_words(&facet));
                let parts: Vec<String> = std::iter::once(it.inner().name().to_owned())
                    .chain(facets)
                    .collect();
                parts.join(", ")
            }
            Some((_, TypeDef::CodeList(it))) => {
                let codes: Vec<&str> = it.codes().map(|code| code.xml_value).collect();
                codes.join(" ")
            }
            Some(_) => return name.to_owned(),
            None => "not there".to_owned(),
        };
        const LONGEST: usize = 60;
        let short: String = more.chars().take(LONGEST).collect();
        let dots = if short.len() < more.len() { ".." } else { "" };
        format!("{name}: {short}{dots}")
    }
}

/// The rows of a type.
fn rows<'g>(found: &TypeDef<'g>) -> Vec<Row<'g>> {
    let row = |name: &str, often: &str, reference| Row {
        name: name.to_owned(),
        often: often.to_owned(),
        reference,
    };
    match found {
        TypeDef::Struct(it) => it
            .fields()
            .map(|f| row(f.xml_name, &often(f.cardinality), f.type_ref))
            .collect(),
        TypeDef::Choice(it) => it
            .variants()
            .map(|v| row(v.xml_name, "", v.type_ref))
            .collect(),
        TypeDef::Value(it) => {
            let attribute = |a: lubiksan::Attribute<'g>| {
                let often = if a.required { "1" } else { "0..1" };
                row(&format!("@{}", a.xml_name), often, a.type_ref)
            };
            let text = std::iter::once(row("text", "1", it.value()));
            text.chain(it.attributes().map(attribute)).collect()
        }
        TypeDef::CodeList(_) | TypeDef::Newtype(_) | TypeDef::Opaque(_) => Vec::new(),
    }
}

/// `0..1`
pub(crate) fn often(cardinality: Cardinality) -> String {
    match cardinality {
        Cardinality::Required => "1".to_owned(),
        Cardinality::Optional => "0..1".to_owned(),
        Cardinality::Vec => "0..*".to_owned(),
        Cardinality::Bounded(most) => format!("0..{most}"),
    }
}

/// A text inside the labels of dot, and inside HTML.
pub(crate) fn html(text: &str) -> String {
    let mut out = String::new();
    for c in escaped(text).chars() {
        match c {
            '&' => out.push_str("&amp;"),
            '<' => out.push_str("&lt;"),
            '>' => out.push_str("&gt;"),
            '"' => out.push_str("&quot;"),
            '\'' => out.push_str("&#39;"),
            '\\' => out.push_str("&#92;"),
            c => out.push(c),
        }
    }
    out
}
