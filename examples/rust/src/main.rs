//! Reads a schema file and prints its types: clear, read, lower, label. The same as graph.c, for files of any length in UTF-8.
//!
//! Build and run, in the folder of a delivery or of the repository:
//!
//! ```text
//! cargo run --manifest-path examples/rust/Cargo.toml -- FILE.xsd
//! ```

use std::error::Error;
use std::path::Path;

use lubiksan::{Graph, Label, ReadAs, TypeDef};
use lubiksan_xml::Schema;

const WORDS: &[u8] = b"String\nbool\nDecimal\nDate\nDateTime\n";

fn main() -> Result<(), Box<dyn Error>> {
    lubiksan::check_version()?;
    let file = std::env::args().nth(1).ok_or("usage: graph FILE.xsd")?;
    let schema = Schema::read(Path::new(&file), ReadAs::Standard)?;
    print!("{}", printed(&schema.graph()?));
    Ok(())
}

/// The roots and types. The label call gives the types by row; the rows are counted along.
fn printed(graph: &Graph<'_>) -> String {
    let mut out = String::new();
    let mut row = 2;
    for root in graph.roots() {
        out += &format!("root {}: {}\n", root.xml_name, root.type_name);
        row += 1;
    }
    for found in graph.types() {
        let (kind, children) = parts(&found);
        out += &format!("{kind} {}{}\n", found.name(), label(graph, row));
        row += 1;
        for child in &children {
            out += &format!("    {child}{}\n", label(graph, row));
            row += 1;
        }
        row += facets(&found);
    }
    out
}

fn label(graph: &Graph<'_>, row: usize) -> String {
    match graph.label(row, WORDS) {
        Ok(Label::Name(text) | Label::Word(text)) => format!(": {}", String::from_utf8_lossy(text)),
        Err(_) => String::new(),
    }
}

/// What a type is, and the names of its parts but facets.
fn parts<'g>(found: &TypeDef<'g>) -> (&'static str, Vec<&'g str>) {
    match found {
        TypeDef::Struct(it) => ("struct", it.fields().map(|field| field.rust_name).collect()),
        TypeDef::Choice(it) => (
            "choice",
            it.variants().map(|variant| variant.xml_name).collect(),
        ),
        TypeDef::Newtype(_) => ("newtype", Vec::new()),
        TypeDef::CodeList(it) => ("codes", it.codes().map(|code| code.rust_name).collect()),
        TypeDef::Value(it) => (
            "value",
            it.attributes()
                .map(|attribute| attribute.rust_name)
                .collect(),
        ),
        TypeDef::Opaque(_) => ("opaque", Vec::new()),
    }
}

/// How many facets a type has; they are left out.
fn facets(found: &TypeDef<'_>) -> usize {
    match found {
        TypeDef::Newtype(it) => it.facets().count(),
        _ => 0,
    }
}
