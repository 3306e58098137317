//! One text through the Rust and through the static library.

use std::fmt::{self, Debug};

use crate::leaves;
use crate::ours;
use crate::paper::number::{is_new_u32, is_new_u64, number_u32, number_u64};
use crate::tally::Tally;

/// What the static library returns where the conversion is longer than `out`.
const TOO_LONG: usize = usize::MAX;
/// What it returns for a text that is no number.
const NOT_A_NUMBER: u32 = 10;
/// Bytes behind the part of a buffer that is lent.
const GUARD: usize = 16;

/// A conversion of the Rust and the same one of the static library.
type Conversion = (
    &'static str,
    fn(&str) -> String,
    fn(&str, &mut [u8]) -> usize,
);

const CONVERSIONS: [Conversion; 3] = [
    (
        "normalize_type_name",
        leaves::normalize_type_name,
        ours::normalize_type_name,
    ),
    (
        "xml_to_snake_case",
        leaves::xml_to_snake_case,
        ours::xml_to_snake_case,
    ),
    (
        "code_to_pascal_case",
        leaves::code_to_pascal_case,
        ours::code_to_pascal_case,
    ),
];

/// Compares the seven leaves on `text`; the conversions get more room than they need. A number in a
/// spelling of order 2 is left out.
pub fn leaves(tally: &mut Tally, text: &str) {
    let start = text.len() - leaves::local_name(text).len();
    tally.compare("local_name", &text, start, ours::local_name(text));
    let builtin = leaves::builtin_number(leaves::map_builtin(text));
    tally.compare("map_builtin", &text, builtin, ours::map_builtin(text));
    if !is_new_u32(text) {
        u32_is(tally, text, leaves::parse_u32(text));
    }
    if !is_new_u64(text) {
        u64_is(tally, text, leaves::parse_u64(text));
    }
    for conversion in CONVERSIONS {
        one_room(tally, conversion, text, 2 * text.len() + 1);
    }
}

/// Compares normalising, the local name and the built-in type on a text of a graph, whose three characters
/// have no other case there.
pub fn of_graph(tally: &mut Tally, text: &str) {
    let start = text.len() - leaves::local_name(text).len();
    tally.compare("local_name", &text, start, ours::local_name(text));
    let builtin = leaves::builtin_number(leaves::map_builtin(text));
    tally.compare("map_builtin", &text, builtin, ours::map_builtin(text));
    one_room(tally, CONVERSIONS[0], text, 2 * text.len() + 1);
    neighbours(tally, "ŉ_a", text);
}

/// Compares the case of a character with the standard library's: the name of a code has its upper form, and its lower one behind
/// another letter; the name of a field has `_` before an upper letter behind a lower one.
pub fn case_of(tally: &mut Tally, c: char) {
    let converted = |convert: fn(&str, &mut [u8]) -> usize, text: String| {
        let mut out = [0; 16];
        let length = convert(&text, &mut out).min(out.len());
        String::from_utf8_lossy(&out[..length]).into_owned()
    };
    let upper: String = c.to_uppercase().collect();
    tally.compare(
        "to_uppercase",
        &c,
        upper,
        converted(ours::code_to_pascal_case, c.into()),
    );
    let lower: String = c.to_lowercase().collect();
    let behind = converted(ours::code_to_pascal_case, format!("X{c}"));
    tally.compare("to_lowercase", &c, format!("X{lower}"), behind);
    let snake = |text| converted(ours::xml_to_snake_case, text);
    let is_upper = snake(format!("x{c}")).starts_with("x_");
    tally.compare("is_uppercase", &c, c.is_uppercase(), is_upper);
    let is_lower = snake(format!("{c}X")).ends_with("_x");
    tally.compare("is_lowercase", &c, c.is_lowercase(), is_lower);
}

/// Compares the two number leaves on `text` with the model.
pub fn numbers(tally: &mut Tally, text: &str) {
    u32_is(tally, text, number_u32(text));
    u64_is(tally, text, number_u64(text));
}

/// Compares the number returned and the value left.
fn u32_is(tally: &mut Tally, text: &str, expected: Option<u32>) {
    let before = 0xA5A5_5A5A;
    let mut value = before;
    let returned = ours::parse_u32(text, &mut value);
    let expected = expected.map_or((NOT_A_NUMBER, before), |v| (0, v));
    tally.compare("parse_u32", &text, expected, (returned, value));
}

/// Compares the number returned and the value left.
fn u64_is(tally: &mut Tally, text: &str, expected: Option<u64>) {
    let before = 0xA5A5_5A5A_C3C3_3C3C;
    let mut value = before;
    let returned = ours::parse_u64(text, &mut value);
    let expected = expected.map_or((NOT_A_NUMBER, before), |v| (0, v));
    tally.compare("parse_u64", &text, expected, (returned, value));
}

/// Compares the conversions of `text` with `out` empty, one too short, exact, one longer, and much longer.
pub fn rooms(tally: &mut Tally, text: &str) {
    for conversion in CONVERSIONS {
        let needed = conversion.1(text).len();
        for room in [0, needed.saturating_sub(1), needed, needed + 1, needed + 37] {
            one_room(tally, conversion, text, room);
        }
    }
}

/// Compares one conversion with an `out` of `room` bytes: the number returned, the bytes of `out`,
/// and that the bytes behind `out` are unchanged.
fn one_room(tally: &mut Tally, (call, rust, ours): Conversion, text: &str, room: usize) {
    let converted = rust(text);
    let expected = written(converted.as_bytes(), room);
    let mut buffer = pattern(room + GUARD);
    let returned = ours(text, &mut buffer[..room]);
    tally.compare(
        call,
        &InRoom { text, room },
        expected,
        (returned, Bytes(buffer)),
    );
}

/// What the static library must return and leave in an `out` of `room` bytes with a guard behind it.
fn written(converted: &[u8], room: usize) -> (usize, Bytes) {
    let returned = if converted.len() <= room {
        converted.len()
    } else {
        TOO_LONG
    };
    let copied = converted.len().min(room);
    let mut buffer = pattern(room + GUARD);
    buffer[..copied].copy_from_slice(&converted[..copied]);
    (returned, Bytes(buffer))
}

/// Bytes above 127 that differ from their neighbours, so that no conversion writes the same.
fn pattern(length: usize) -> Vec<u8> {
    (0..length).map(|i| 0x80 | (i % 113) as u8).collect()
}

/// Compares `same_normalized` on `a` and `b`, both ways round.
pub fn same_normalized(tally: &mut Tally, a: &str, b: &str) {
    let rust = u32::from(leaves::normalize_type_name(a) == leaves::normalize_type_name(b));
    tally.compare(
        "same_normalized",
        &(a, b),
        rust,
        ours::same_normalized(a, b),
    );
    tally.compare(
        "same_normalized",
        &(b, a),
        rust,
        ours::same_normalized(b, a),
    );
}

/// Compares `same_normalized` on `text` with itself, with its normalised form, and with `previous`.
pub fn neighbours(tally: &mut Tally, previous: &str, text: &str) {
    same_normalized(tally, text, text);
    same_normalized(tally, text, &leaves::normalize_type_name(text));
    same_normalized(tally, text, previous);
}

/// The input of a conversion.
struct InRoom<'a> {
    text: &'a str,
    room: usize,
}

impl Debug for InRoom<'_> {
    fn fmt(&self, f: &mut fmt::Formatter<'_>) -> fmt::Result {
        write!(f, "{:?} with {} bytes of room", self.text, self.room)
    }
}

/// Bytes that are printed escaped.
#[derive(PartialEq)]
struct Bytes(Vec<u8>);

impl Debug for Bytes {
    fn fmt(&self, f: &mut fmt::Formatter<'_>) -> fmt::Result {
        write!(f, "\"{}\"", self.0.escape_ascii())
    }
}
