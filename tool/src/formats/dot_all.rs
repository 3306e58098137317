//! The graph for Graphviz with a node for every type.

use std::collections::HashMap;
use std::fmt::Write;

use lubiksan::names::{map_builtin, normalize_type_name};
use lubiksan::{Code, Field, Graph, TypeDef, TypeRef};

use super::{facet_words, with_cardinality, word_of};
use crate::failure::{escaped, quoted};

/// The text for `dot`, a node for every type, newtypes and code lists too.
pub fn print(graph: &Graph<'_>) -> String {
    let mut out = String::from(
        "digraph schema {\n    rankdir=LR;\n    node [shape=box, fontname=\"monospace\"];\n",
    );
    let mut nodes = Nodes::of(graph);
    for (index, root) in graph.roots().enumerate() {
        let _ = writeln!(
            out,
            "    root{index} [shape=ellipse, label={}];",
            label(root.xml_name)
        );
        if map_builtin(root.type_name).is_none() {
            let node = nodes.node(&normalize_type_name(root.type_name));
            let _ = writeln!(out, "    root{index} -> {node};");
        }
    }
    for found in graph.types() {
        put_type(&mut out, &mut nodes, &found);
    }
    nodes.put_missing(&mut out);
    out.push_str("}\n");
    out
}

/// The nodes of the types by name, and those of names that are no types.
struct Nodes {
    types: HashMap<String, String>,
    missing: Vec<String>,
}

impl Nodes {
    fn of(graph: &Graph<'_>) -> Nodes {
        let names = graph.types().map(|found| found.name().to_owned());
        let types = names
            .enumerate()
            .map(|(index, name)| (name, format!("type{index}")))
            .collect();
        Nodes {
            types,
            missing: Vec::new(),
        }
    }

    fn node(&mut self, name: &str) -> String {
        let next = format!("missing{}", self.missing.len());
        let node = self.types.entry(name.to_owned()).or_insert_with(|| {
            self.missing.push(name.to_owned());
            next
        });
        node.clone()
    }

    fn put_missing(&self, out: &mut String) {
        for (index, name) in self.missing.iter().enumerate() {
            let _ = writeln!(
                out,
                "    missing{index} [style=dashed, label={}];",
                label(name)
            );
        }
    }
}

fn put_type(out: &mut String, nodes: &mut Nodes, found: &TypeDef<'_>) {
    let node = nodes.node(found.name());
    let mut lines = vec![format!("{} {}", word_of(found), escaped(found.name()))];
    let mut edges = Vec::new();
    for (line, reference) in children(found) {
        lines.push(line);
        if let Some(TypeRef::Named(name)) = reference {
            edges.push(nodes.node(name));
        }
    }
    let text: String = lines
        .iter()
        .map(|line| format!("{}\\l", inside(line)))
        .collect();
    let _ = writeln!(out, "    {node} [label=\"{text}\"];");
    edges.sort();
    edges.dedup();
    for edge in edges {
        let _ = writeln!(out, "    {node} -> {edge};");
    }
}

/// A line for a child, and the type that it refers to.
type Child<'g> = (String, Option<TypeRef<'g>>);

fn children<'g>(found: &TypeDef<'g>) -> Vec<Child<'g>> {
    match found {
        TypeDef::Struct(it) => it.fields().map(field).collect(),
        TypeDef::Choice(it) => it
            .variants()
            .map(|v| referring(v.rust_name, v.type_ref))
            .collect(),
        TypeDef::CodeList(it) => {
            let code = |c: Code<'g>| plain(&format!("{}: {}", c.rust_name, quoted(c.xml_value)));
            it.codes().map(code).collect()
        }
        TypeDef::Newtype(it) => {
            let facets = it.facets().map(|facet| plain(&facet_words(&facet)));
            std::iter::once(plain(it.inner().name()))
                .chain(facets)
                .collect()
        }
        TypeDef::Value(it) => {
            let value = (escaped(&format!("  {}", it.value())), Some(it.value()));
            let attributes = it.attributes().map(|a| referring(a.rust_name, a.type_ref));
            std::iter::once(value).chain(attributes).collect()
        }
        TypeDef::Opaque(it) => it
            .namespace()
            .map(|name| plain(&quoted(name)))
            .into_iter()
            .collect(),
    }
}

fn field(field: Field<'_>) -> Child<'_> {
    let kind = with_cardinality(&field.type_ref.to_string(), field.cardinality);
    (
        escaped(&format!("  {}: {kind}", field.rust_name)),
        Some(field.type_ref),
    )
}

fn referring<'g>(name: &str, reference: TypeRef<'g>) -> Child<'g> {
    (escaped(&format!("  {name}: {reference}")), Some(reference))
}

fn plain<'g>(words: &str) -> Child<'g> {
    (escaped(&format!("  {words}")), None)
}

/// A text in the quotes of dot.
fn label(text: &str) -> String {
    format!("\"{}\"", inside(&escaped(text)))
}

fn inside(text: &str) -> String {
    text.replace('\\', "\\\\").replace('"', "\\\"")
}
