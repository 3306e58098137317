//! Writes copies of parser.rs and lower.rs whose private leaves can be called.

mod copy;

use copy::write_copy;

/// The private functions that the comparison calls.
const PARSER_LEAVES: [&str; 3] = ["local_name", "parse_u32", "parse_u64"];
const LOWER_LEAVES: [&str; 2] = ["map_builtin", "normalize_type_name"];

fn main() {
    println!("cargo:rerun-if-changed=build.rs");
    println!("cargo:rerun-if-changed=copy.rs");
    write_copy("src/xsd/parser.rs", "parser.rs", &PARSER_LEAVES);
    write_copy("src/ir/lower.rs", "lower.rs", &LOWER_LEAVES);
}
