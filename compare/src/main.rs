//! Compares the proved calls of the static library `lubiksan`, and the printing program, with the unchanged Rust, a model of paper 01 and
//! other parsers; makes the files of programs and the cases of definitions that are compared elsewhere.
//!
//! | usage | does |
//! |---|---|
//! | `compare leaves` | the text leaves against the Rust |
//! | `compare calls` | clearing, reading and labels against the model and the Rust |
//! | `compare lowerings` | lowering against the model and the Rust |
//! | `compare patterns` | the pattern call against an Earley parser and a descent over the productions |
//! | `compare columns` | rows into columns and back against a model of order 10 |
//! | `compare writes` | the schema written back against the model, quick-xml, expat and libxml2, and read again |
//! | `compare reduce` | graphs reduced to what their roots use, and judged, against a model of order 6 |
//! | `compare texts [all]` | the tape of a text against the model, quick-xml, expat and libxml2: over a million texts, or all |
//! | `compare prints run PROGRAM` | what the printing program prints against the model |
//! | `compare prints table`, `answers` | the part `print` of stdin and stdout of crates/replay, by the model |
//! | `compare vectors inputs`, `answers` | the texts of crates/replay; the answers of the Rust to texts |
//! | `compare definitions FOLDER SEED` | cases for the definitions under crates/, as statements of the proof language |
//!
//! It ends with 0 where all agree, with 1 where something differs, with 2 for wrong use and what can't be read or written. Those with schemas
//! take them from LUBIKSAN_SCHEMAS, or else from ../shared/schemas beside the repository; without them they pass these cases over, and fail
//! where `CI` is set. `leaves`, `calls`, `lowerings`, `patterns`, `columns`, `writes`, `reduce` and `texts` are built with the feature `ours`.

mod commands;

use std::env;
use std::process::ExitCode;

use commands::{definitions, prints, vectors};

const USAGE: &str = "usage: compare leaves | calls | lowerings | patterns | columns | writes | reduce | texts [all] | prints run PROGRAM | prints table | prints answers | \
                     vectors inputs | vectors answers | definitions FOLDER SEED";

fn main() -> ExitCode {
    let words: Vec<String> = env::args().skip(1).collect();
    match words.iter().map(String::as_str).collect::<Vec<_>>()[..] {
        ["prints", "run", program] => prints::run(program),
        ["prints", "table"] => prints::table(),
        ["prints", "answers"] => prints::answers(),
        ["vectors", "inputs"] => vectors::inputs(),
        ["vectors", "answers"] => vectors::answers(),
        ["definitions", folder, seed] => definitions::run(folder, seed),
        ref others => of_the_library(others),
    }
}

/// The comparisons with the static library.
#[cfg(feature = "ours")]
fn of_the_library(words: &[&str]) -> ExitCode {
    use commands::{calls, columns, leaves, lowerings, patterns, reduce, texts, writes};
    use compare::texts::Extent;
    match words {
        ["leaves"] => leaves::run(),
        ["calls"] => calls::run(),
        ["lowerings"] => lowerings::run(),
        ["patterns"] => patterns::run(),
        ["columns"] => columns::run(),
        ["writes"] => writes::run(),
        ["reduce"] => reduce::run(),
        ["texts"] => texts::run(Extent::Gate),
        ["texts", "all"] => texts::run(Extent::All),
        _ => commands::failed("compare", &USAGE),
    }
}

#[cfg(not(feature = "ours"))]
fn of_the_library(words: &[&str]) -> ExitCode {
    match words {
        ["leaves" | "calls" | "lowerings" | "patterns" | "columns" | "writes" | "reduce"
        | "texts", ..] => commands::failed("compare", &"it was built without the feature `ours`"),
        _ => commands::failed("compare", &USAGE),
    }
}
