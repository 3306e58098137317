//! The schema side of mx20022-codegen (Apache-2.0): parser.rs and types.rs stand unchanged.

#[rustfmt::skip]
pub mod parser;
#[rustfmt::skip]
pub mod types;

pub use parser::{parse, parse_str, ParseError};
pub use types::*;
