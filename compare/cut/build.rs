//! Writes the copy of parser.rs whose handlers a child module calls.

#[path = "../copy.rs"]
mod copy;

fn main() {
    println!("cargo:rerun-if-changed=build.rs");
    println!("cargo:rerun-if-changed=../copy.rs");
    copy::write_copy("../src/xsd/parser.rs", "parser.rs", &[]);
}
