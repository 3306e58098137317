//! Order 12: what a text is, by the decoder of the standard library.

use std::str;

/// "UTF-8 for code points U+0080 to U+017F", and ASCII.
pub fn is_text(bytes: &[u8]) -> bool {
    holds(bytes, |c| c <= '\u{17F}')
}

/// "in graphs also U+02BC, U+0307 and U+039C"
pub fn is_graph_text(bytes: &[u8]) -> bool {
    let brought_in = ['\u{2BC}', '\u{307}', '\u{39C}'];
    holds(bytes, |c| c <= '\u{17F}' || brought_in.contains(&c))
}

fn holds(bytes: &[u8], allowed: impl Fn(char) -> bool) -> bool {
    str::from_utf8(bytes).is_ok_and(|text| text.chars().all(allowed))
}
