//! The copy of parser.rs that build.rs makes of the unchanged file: `//!` is `//`, nothing else differs.

include!(concat!(env!("OUT_DIR"), "/parser.rs"));

#[path = "../../src/derived/xsd/parser/prepared.rs"]
pub mod prepared;
