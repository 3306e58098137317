//! Random schemas with types of every kind whose names meet by normalising.

use crate::definitions::numbered::with_numbers;
use crate::names::{near_misses, BUILTIN_NAMES, OTHER_BUILTIN_NAMES};
use crate::paper::sheet::Row;
use crate::paper::state::State;
use crate::random::Random;

/// Names of types; many normalise to the same text.
const MEETING: [&str; 24] = [
    "A", "_A", "A_", "a_", "_a", "a", "AB", "A_B", "a_b", "aB_", "_aB", "ab", "Ab", "", "_", "__",
    "x:y", "x:_y", "X:y_", "date", "xs:date", "A_b_C", "ABC", "a_BC",
];
const PREFIXES: [&str; 6] = ["", "", "xs:", "my:", "a:b:", ":"];
const WIDE: [u32; 6] = [0, 1, 2, 35, 4_294_967_295, 65_536];
const OCCURS: [u32; 6] = [0, 1, 1, 2, 5, 4_294_967_295];

/// One of the choices.
fn one<A: Copy>(random: &mut Random, choices: &[A]) -> A {
    choices[random.below(choices.len())]
}

/// A text of up to `longest` bytes of the alphabet.
fn text(random: &mut Random, alphabet: &[u8], longest: usize) -> String {
    let length = random.below(longest + 1);
    random.text(alphabet, length)
}

/// The name of a type.
fn type_name(random: &mut Random) -> String {
    match random.below(8) {
        0 => text(random, b"aAbB_:-9", 8),
        1 => text(random, b"ab_", 3),
        _ => one(random, &MEETING).to_owned(),
    }
}

/// A built-in name with or without a prefix, now and then one close to it.
fn builtin(random: &mut Random) -> String {
    let name = match random.below(12) {
        0 => one(random, &OTHER_BUILTIN_NAMES),
        _ => one(random, &BUILTIN_NAMES),
    };
    match random.below(24) {
        0 => {
            let misses = near_misses(name);
            misses[random.below(misses.len())].clone()
        }
        _ => format!("{}{name}", one(random, &PREFIXES)),
    }
}

/// The type that an element or attribute has.
fn reference(random: &mut Random) -> String {
    match random.below(2) {
        0 => builtin(random),
        _ => type_name(random),
    }
}

/// The base of a simple type; known most of the time.
fn base(random: &mut Random) -> String {
    match random.below(24) {
        0 => String::new(),
        1 => type_name(random),
        _ => format!("{}{}", one(random, &PREFIXES), one(random, &BUILTIN_NAMES)),
    }
}

fn element_name(random: &mut Random) -> String {
    text(random, b"aAbBzZ09_-:. ", 10)
}

fn code(random: &mut Random) -> Row {
    Row::new(4, &[&text(random, b"aAbZ09-_ ", 7)])
}

/// A facet that is no enumeration.
fn constraint(random: &mut Random) -> Row {
    match one(random, &[5, 6, 7, 8, 9, 10, 11]) {
        tag @ (6 | 7) => Row::new(tag, &[]).with(one(random, &WIDE), one(random, &WIDE)),
        tag @ (10 | 11) => Row::new(tag, &[]).with(one(random, &WIDE), 0),
        tag => Row::new(tag, &[&text(random, b"[a-z]0.9{}", 6)]),
    }
}

/// A simple type: a code enum, a newtype, or both kinds of facets.
fn simple(random: &mut Random) -> Vec<Row> {
    let kind = random.below(3);
    let mut rows = vec![Row::new(3, &[&type_name(random), &base(random)])];
    for _ in 0..random.below(4) {
        let is_code = kind == 0 || (kind == 2 && random.below(2) == 0);
        rows.push(if is_code {
            code(random)
        } else {
            constraint(random)
        });
    }
    rows
}

fn field(random: &mut Random) -> Row {
    let texts = [element_name(random), reference(random)];
    let texts = [texts[0].as_str(), texts[1].as_str()];
    match random.below(3) {
        0 => Row::new(18, &texts).with(one(random, &OCCURS), 0),
        _ => Row::new(17, &texts).with(one(random, &OCCURS), one(random, &OCCURS)),
    }
}

fn complex(random: &mut Random) -> Vec<Row> {
    let name = type_name(random);
    let children = random.below(4);
    let mut rows = Vec::new();
    match random.below(4) {
        0 => {
            rows.push(Row::new(12, &[&name]));
            rows.extend((0..children).map(|_| field(random)));
        }
        1 => {
            let variant = |_| Row::new(19, &[&element_name(random), &reference(random)]);
            rows.push(Row::new(13, &[&name]));
            rows.extend((0..children).map(variant));
        }
        2 => {
            rows.push(Row::new(14, &[&name, &reference(random)]));
            rows.extend((0..children).map(|_| attribute(random)));
        }
        _ => rows.push(any(random, &name)),
    }
    rows
}

fn attribute(random: &mut Random) -> Row {
    let required = random.below(2) as u32;
    Row::new(20, &[&element_name(random), &reference(random)]).with(required, 0)
}

fn any(random: &mut Random, name: &str) -> Row {
    match random.below(2) {
        0 => Row::new(15, &[name]),
        _ => Row::new(15, &[name, &text(random, b"ur:n#", 5)]).with(1, 0),
    }
}

fn item(random: &mut Random) -> Vec<Row> {
    match random.below(5) {
        0 => vec![Row::new(2, &[&element_name(random), &reference(random)])],
        1 | 2 => simple(random),
        _ => complex(random),
    }
}

/// A schema of up to `most` elements and finished types, in any context; behind it an open type in contexts 2 and 3.
pub fn schema(random: &mut Random, most: usize) -> State {
    let mut rows = vec![Row::new(1, &[&text(random, b"urn:x", 6)])];
    for _ in 0..random.below(most + 1) {
        rows.extend(item(random));
    }
    let context = random.below(4) as u32;
    match context {
        2 => rows.extend(simple(random)),
        3 if random.below(3) == 0 => rows.push(Row::new(16, &[&type_name(random)])),
        3 => rows.extend(complex(random)),
        _ => {}
    }
    let unnumbered = State {
        rows,
        context,
        root_seen: true,
        events: random.below(100) as u32,
        open_tags: context.min(2) + random.below(3) as u32,
        ..State::cleared()
    };
    with_numbers(unnumbered, random)
}
