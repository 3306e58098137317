//! The text functions of the library. They take any text; letters up to U+017F have the case that the Unicode data give them, as in the
//! standard library: `ß` goes up to `SS`, `ŉ` to U+02BC and `N`, `İ` goes down to `i` and U+0307.

use crate::calls;
use crate::graph::Builtin;

/// The part after the last colon.
///
/// ```
/// assert_eq!(lubiksan::names::local_name("xs:element"), "element");
/// ```
pub fn local_name(name: &str) -> &str {
    name.get(calls::local_name(name.as_bytes())..)
        .unwrap_or(name)
}

/// An optional plus sign, then one or more digits, at most 4294967295; or a minus sign, then one or more
/// zeros, which is 0. Tabs, line ends and spaces may stand around it.
///
/// ```
/// assert_eq!(lubiksan::names::parse_u32("+007"), Some(7));
/// assert_eq!(lubiksan::names::parse_u32(" 35 "), Some(35));
/// assert_eq!(lubiksan::names::parse_u32("-0"), Some(0));
/// assert_eq!(lubiksan::names::parse_u32("4294967296"), None);
/// ```
pub fn parse_u32(text: &str) -> Option<u32> {
    calls::parse_u32(text.as_bytes())
}

/// As [`parse_u32`], with values up to 18446744073709551615.
///
/// ```
/// assert_eq!(lubiksan::names::parse_u64("18446744073709551615"), Some(u64::MAX));
/// ```
pub fn parse_u64(text: &str) -> Option<u64> {
    calls::parse_u64(text.as_bytes())
}

/// The built-in type of a type name, after its last colon.
///
/// ```
/// use lubiksan::{names::map_builtin, Builtin};
/// assert_eq!(map_builtin("xs:date"), Some(Builtin::Date));
/// assert_eq!(map_builtin("Max35Text"), None);
/// ```
pub fn map_builtin(name: &str) -> Option<Builtin> {
    Builtin::of(calls::map_builtin(name.as_bytes()))
}

/// The name of a type as the graph has it.
///
/// ```
/// assert_eq!(lubiksan::names::normalize_type_name("Amount_SimpleType"), "AmountSimpleType");
/// assert_eq!(lubiksan::names::normalize_type_name("größe_ähnlich"), "GrößeÄhnlich");
/// ```
pub fn normalize_type_name(name: &str) -> String {
    converted(name, calls::normalize_type_name)
}

/// The name of a field.
///
/// ```
/// assert_eq!(lubiksan::names::xml_to_snake_case("FIToFICstmrCdtTrf"), "fi_to_fi_cstmr_cdt_trf");
/// assert_eq!(lubiksan::names::xml_to_snake_case("CréditÉtatİl"), "crédit_état_il");
/// ```
pub fn xml_to_snake_case(name: &str) -> String {
    converted(name, calls::xml_to_snake_case)
}

/// The name of a code.
///
/// ```
/// assert_eq!(lubiksan::names::code_to_pascal_case("TEST-VALUE"), "TestValue");
/// assert_eq!(lubiksan::names::code_to_pascal_case("ÉTÉ-ß"), "ÉtéSS");
/// ```
pub fn code_to_pascal_case(value: &str) -> String {
    converted(value, calls::code_to_pascal_case)
}

/// The two type names have one name in the graph.
///
/// ```
/// assert!(lubiksan::names::same_normalized("a_b", "AB"));
/// assert!(lubiksan::names::same_normalized("ı_a", "i_a"));
/// ```
pub fn same_normalized(a: &str, b: &str) -> bool {
    calls::same_normalized(a.as_bytes(), b.as_bytes())
}

/// The conversion of `name`. None is more than twice as long as its text.
fn converted(name: &str, convert: fn(&[u8], &mut [u8]) -> usize) -> String {
    let mut out = vec![0; 2 * name.len()];
    let length = convert(name.as_bytes(), &mut out).min(out.len());
    out.truncate(length);
    String::from_utf8_lossy(&out).into_owned()
}
