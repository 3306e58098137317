//! parser.rs of mx20022-codegen, unchanged, over an adapter whose tags hold a list of keys and values.
//! `compare` has the same file over the adapter whose tags are cut by the handlers; as both files say
//! `quick_xml`, a second crate gives that name to the other adapter.

#![forbid(unsafe_code)]

mod parser;
#[rustfmt::skip]
#[path = "../../src/xsd/types.rs"]
pub mod types;

pub use parser::prepared::{with_prepared, Prepared};
pub use parser::{parse, parse_str, ParseError};
