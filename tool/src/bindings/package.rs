//! The files that are made: a crate with a module for each schema, or one file.

use std::fmt::Write;
use std::path::{Path, PathBuf};

use lubiksan::Graph;

use super::make::{self, Wanted};
use super::model::Schema;
use super::write;
use crate::failure::{named, quoted, Failure};
use crate::identifier::{identifier, spelled};
use crate::notkept::NotKept;
use crate::source::Source;

const SUPPORT: &str = include_str!("support.rs");

/// The modules inside it.
const INNER: [(&str, &str); 2] = [
    ("place", include_str!("support/place.rs")),
    ("reader", include_str!("support/reader.rs")),
];

/// The schemas so far.
#[derive(Default)]
pub struct Modules {
    schemas: Vec<Schema>,
}

/// What is said of a schema: where the graph is not the schema and the bindings follow it, and what is not kept.
#[derive(Clone, Debug, Default, PartialEq, Eq)]
pub struct Made {
    /// A line for each place that is followed.
    pub followed: Vec<String>,
    /// A line for each place that is not kept, with `--lossy`.
    pub lost: Vec<String>,
}

impl Modules {
    /// Adds a schema.
    ///
    /// # Errors
    ///
    /// [`Failure::Refused`] where it can't be followed, or where there is a module of its name already.
    pub fn add(
        &mut self,
        source: &Source,
        graph: &Graph<'_>,
        not_kept: &NotKept<'_>,
        wanted: Wanted,
    ) -> Result<Made, Failure> {
        let mut schema = make::schema(source, graph, not_kept, wanted)?;
        schema.name = module_name(source.path());
        if self.schemas.iter().any(|other| other.name == schema.name) {
            let words = format!("there is a module {} already", quoted(&schema.name));
            return Err(Failure::Refused(format!(
                "{}: {words}",
                named(source.path())
            )));
        }
        let made = Made {
            followed: schema.followed.clone(),
            lost: schema.lost.clone(),
        };
        self.schemas.push(schema);
        Ok(made)
    }
}

/// The name of a schema's module, from the file's stem. Of ASCII, since rustc finds no file of another name.
fn module_name(file: &Path) -> String {
    let stem = file
        .file_stem()
        .map(|stem| stem.to_string_lossy().to_lowercase());
    let plain = |c: char| if c.is_ascii() { c } else { '_' };
    let stem: String = stem.unwrap_or_default().chars().map(plain).collect();
    let name = identifier(&stem);
    match name == "support" {
        true => format!("{name}_"),
        false => spelled(&name),
    }
}

/// The files of a crate, each with its path below the crate's folder.
pub fn crate_of(modules: &Modules, folder: &Path) -> Vec<(PathBuf, String)> {
    let mut files = vec![
        (PathBuf::from("Cargo.toml"), manifest(folder)),
        (PathBuf::from("src/lib.rs"), library(modules)),
        (PathBuf::from("src/support.rs"), SUPPORT.to_owned()),
    ];
    for (name, source) in INNER {
        let path = PathBuf::from(format!("src/support/{name}.rs"));
        files.push((path, source.to_owned()));
    }
    for schema in &modules.schemas {
        let name = format!("src/{}.rs", schema.name.trim_start_matches("r#"));
        files.push((PathBuf::from(name), write::module(schema)));
    }
    files
}

/// One file with a module for each schema.
pub fn module_of(modules: &Modules) -> String {
    let mut out = format!("{}\n{}", head(modules), "#![allow(dead_code)]\n\n");
    put_inside(&mut out, "pub mod support", &support_in_one());
    for schema in &modules.schemas {
        let head = format!("pub mod {}", schema.name);
        put_inside(&mut out, &head, &write::module(schema));
    }
    out
}

/// The shared module with those inside it.
fn support_in_one() -> String {
    let mut out = SUPPORT.to_owned();
    for (name, source) in INNER {
        let mut inner = String::new();
        put_inside(&mut inner, &format!("mod {name}"), source);
        out = out.replace(&format!("mod {name};\n"), &inner);
    }
    out
}

fn put_inside(out: &mut String, head: &str, source: &str) {
    let _ = writeln!(out, "{head} {{");
    for line in source.lines() {
        match line.is_empty() {
            true => out.push('\n'),
            false => drop(writeln!(out, "    {line}")),
        }
    }
    out.push_str("}\n");
}

fn head(modules: &Modules) -> String {
    let mut out = String::from("//! Messages, read and written by serde and quick-xml; made by `lubiksan bindings`.\n//!\n");
    for schema in &modules.schemas {
        let _ = writeln!(
            out,
            "//! - `{}`: `{}`",
            schema.name.trim_start_matches("r#"),
            schema.file
        );
    }
    out
}

fn library(modules: &Modules) -> String {
    let mut out = head(modules);
    out.push_str("\n#![deny(unsafe_code)]\n#![warn(missing_docs)]\n\n");
    let names = modules.schemas.iter().map(|schema| schema.name.as_str());
    let mut names: Vec<&str> = names.chain(["support"]).collect();
    names.sort_unstable();
    for name in names {
        let _ = writeln!(out, "pub mod {name};");
    }
    out
}

fn manifest(folder: &Path) -> String {
    let plain = |c: char| match c.is_ascii_alphanumeric() || c == '_' {
        true => c.to_ascii_lowercase(),
        false => '-',
    };
    let name = folder
        .file_name()
        .map(|name| name.to_string_lossy().into_owned());
    let name: String = name.unwrap_or_default().chars().map(plain).collect();
    let name = name.trim_matches('-');
    let name = match name.starts_with(|c: char| c.is_ascii_alphabetic()) {
        true => name.to_owned(),
        false => format!("messages-{name}").trim_end_matches('-').to_owned(),
    };
    format!(
        "[package]
name = \"{name}\"
version = \"0.1.0\"
edition = \"2021\"
rust-version = \"1.82\"
publish = false

[dependencies]
quick-xml = {{ version = \"0.38.4\", features = [\"serialize\"] }}
regex = \"1.7\"
serde = {{ version = \"1.0\", features = [\"derive\"] }}
"
    )
}
