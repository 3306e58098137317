//! The leaves of the Rust give the specimens of paper 01.

use compare::ir::types::RustType;
use compare::leaves::*;
use compare::names::{BUILTIN_NAMES, OTHER_BUILTIN_NAMES};

#[test]
fn snake_case() {
    assert_eq!(
        xml_to_snake_case("FIToFICstmrCdtTrf"),
        "fi_to_fi_cstmr_cdt_trf"
    );
    assert_eq!(xml_to_snake_case("BICFI"), "bicfi");
    assert_eq!(xml_to_snake_case("Dt2Nm"), "dt2nm");
    assert_eq!(xml_to_snake_case(""), "");
}

#[test]
fn pascal_case() {
    assert_eq!(code_to_pascal_case("TEST-VALUE"), "TestValue");
    assert_eq!(code_to_pascal_case("TestValue"), "Testvalue");
}

#[test]
fn normalised_type_names() {
    assert_eq!(normalize_type_name("Amount_SimpleType"), "AmountSimpleType");
    assert_eq!(normalize_type_name("a_b"), "AB");
    assert_eq!(normalize_type_name("ab"), "ab");
    assert_eq!(normalize_type_name("_"), "");
    assert_eq!(normalize_type_name("my:a_b"), "My:aB");
}

#[test]
fn builtin_types() {
    assert_eq!(map_builtin("my:date"), Some(RustType::Date));
    assert_eq!(map_builtin("QName"), None);
    assert_eq!(builtin_number(map_builtin("xs:string")), 1);
    assert_eq!(builtin_number(map_builtin("xs:boolean")), 2);
    assert_eq!(builtin_number(map_builtin("xs:decimal")), 3);
    assert_eq!(builtin_number(map_builtin("xs:date")), 4);
    assert_eq!(builtin_number(map_builtin("xs:dateTime")), 5);
    assert_eq!(builtin_number(map_builtin("")), 0);
}

#[test]
fn lists_of_builtin_types_are_right() {
    assert!(BUILTIN_NAMES.iter().all(|name| map_builtin(name).is_some()));
    assert!(OTHER_BUILTIN_NAMES
        .iter()
        .all(|name| map_builtin(name).is_none()));
}

#[test]
fn numbers() {
    assert_eq!(parse_u32("+7"), Some(7));
    assert_eq!(parse_u32("007"), Some(7));
    for refused in ["", "+", "-0", " 7"] {
        assert_eq!(parse_u32(refused), None);
        assert_eq!(parse_u64(refused), None);
    }
    assert_eq!(parse_u32("4294967295"), Some(u32::MAX));
    assert_eq!(parse_u32("4294967296"), None);
    assert_eq!(parse_u64("4294967296"), Some(1 << 32));
    assert_eq!(parse_u64("18446744073709551615"), Some(u64::MAX));
    assert_eq!(parse_u64("18446744073709551616"), None);
}

#[test]
fn local_names() {
    assert_eq!(local_name("my:date"), "date");
    assert_eq!(local_name("a:b:schema"), "schema");
    assert_eq!(local_name("schema"), "schema");
    assert_eq!(local_name("x:"), "");
}
