//! The seven text leaves of parser.rs and lower.rs.

use crate::derived::ir::lower;
use crate::derived::xsd::parser;
use crate::ir::types::RustType;

pub use crate::ir::lower::{code_to_pascal_case, xml_to_snake_case};

/// The part of `name` behind its last colon.
pub fn local_name(name: &str) -> &str {
    parser::local_name(name)
}

/// The number that `text` stands for, where it is one of 32 bits.
pub fn parse_u32(text: &str) -> Option<u32> {
    parser::parse_u32(text, "value").ok()
}

/// The number that `text` stands for, where it is one of 64 bits.
pub fn parse_u64(text: &str) -> Option<u64> {
    parser::parse_u64(text, "value").ok()
}

/// The primitive type that a built-in type name stands for.
pub fn map_builtin(name: &str) -> Option<RustType> {
    lower::map_builtin(name)
}

/// The number of a primitive type in the graph sheet; 0 stands for none.
pub fn builtin_number(found: Option<RustType>) -> u32 {
    match found {
        None => 0,
        Some(RustType::String) => 1,
        Some(RustType::Bool) => 2,
        Some(RustType::Decimal) => 3,
        Some(RustType::Date) => 4,
        Some(RustType::DateTime) => 5,
    }
}

/// The type name without underscores, the first letter of each part in upper case.
pub fn normalize_type_name(name: &str) -> String {
    lower::normalize_type_name(name)
}
