//! Shared by the build scripts: a copy of one of the Rust files, so that child modules can be put into it.

use std::env;
use std::fs;
use std::path::PathBuf;

/// Writes the copy of `source` to OUT_DIR under `name`; in it each of `leaves` is `pub(crate)`.
pub fn write_copy(source: &str, name: &str, leaves: &[&str]) {
    println!("cargo:rerun-if-changed={source}");
    let text = fs::read_to_string(source).expect("the source can be read");
    let mut copy = without_inner_docs(&text);
    for leaf in leaves {
        copy = with_leaf_visible(&copy, leaf);
    }
    let out = PathBuf::from(env::var_os("OUT_DIR").expect("cargo sets OUT_DIR"));
    fs::write(out.join(name), copy).expect("OUT_DIR can be written");
}

/// Turns `//!` lines into `//` lines: `include!` takes no inner documentation.
fn without_inner_docs(text: &str) -> String {
    text.lines()
        .map(|line| match line.strip_prefix("//!") {
            Some(rest) => format!("//{rest}\n"),
            None => format!("{line}\n"),
        })
        .collect()
}

/// Puts `pub(crate)` before the one definition of `leaf`.
fn with_leaf_visible(text: &str, leaf: &str) -> String {
    let private = format!("\nfn {leaf}(");
    assert_eq!(
        text.matches(&private).count(),
        1,
        "one definition of {leaf}"
    );
    text.replace(&private, &format!("\npub(crate) fn {leaf}("))
}
