//! Order 4: types of one name, with the answers worked out by hand.

use super::call::Call;
use super::Case;
use crate::paper::sheet::{names_used, Lent, Row, Sheet};
use crate::paper::state::State;
use crate::paper::{answer, Answer};

/// A sheet lowered, and what must be answered.
pub struct Example {
    pub shows: &'static str,
    pub sheet: Sheet,
    /// The graph and the scratch that are lent; their old contents are not zero.
    pub graph: Sheet,
    pub scratch: Vec<u32>,
    pub answer: Answer,
}

/// Numbers of the graph's rows, bytes of its names, numbers of scratch.
type Lendings = (usize, usize, usize);

const ROOMY: Lendings = (120, 40, 64);

/// A simple type with this base.
fn simple_of(name: &str, base: &str) -> Vec<Row> {
    vec![Row::new(3, &[name, base])]
}

/// A simple type that lowering takes.
fn simple(name: &str) -> Vec<Row> {
    simple_of(name, "string")
}

/// A complex type with one element.
fn complex(name: &str) -> Vec<Row> {
    let element = Row::new(17, &["e", "t"]).with(1, 1);
    vec![Row::new(12, &[name]), element]
}

/// A complex type of one row.
fn opaque(name: &str) -> Vec<Row> {
    vec![Row::new(15, &[name])]
}

fn element(name: &str) -> Vec<Row> {
    vec![Row::new(2, &[name, name])]
}

/// The example of these heads, from row 2 on, the last one open in this context above 1.
fn example(
    shows: &'static str,
    heads: &[Vec<Row>],
    context: u32,
    (rows, names, scratch): Lendings,
    given: (u32, u32),
) -> Example {
    let state = State {
        rows: [vec![Row::new(1, &["u"])], heads.concat()].concat(),
        context,
        root_seen: true,
        open_tags: context.min(2),
        ..State::cleared()
    };
    let lent = Lent {
        rows: 20 + 10 * state.rows.len(),
        names: 1 + names_used(&state.rows),
    };
    Example {
        shows,
        sheet: state.sheet(lent),
        graph: Sheet {
            rows: vec![6; rows],
            names: vec![200; names],
        },
        scratch: vec![8; scratch],
        answer: answer(given.0, given.1),
    }
}

/// Which types are compared, and which of them is the place.
fn places() -> Vec<Example> {
    let (s, c, o, e) = (simple, complex, opaque, element);
    let closed = |shows, heads: &[Vec<Row>], given| example(shows, heads, 0, ROOMY, given);
    vec![
        closed("simple before complex", &[s("a_b"), c("AB")], (20, 3)),
        closed(
            "complex before simple: the upper row",
            &[c("AB"), s("a_b")],
            (20, 2),
        ),
        closed("the same without children", &[o("AB"), s("a_b")], (20, 2)),
        closed(
            "children count in the place",
            &[c("AB"), c("X"), c("a_b")],
            (20, 6),
        ),
        closed(
            "the earliest second one, not the partner of the earliest first",
            &[s("A"), s("B"), s("B"), s("A")],
            (20, 4),
        ),
        closed(
            "simple ones are gone through first",
            &[c("B"), c("B"), s("A"), s("A")],
            (20, 7),
        ),
        closed("three of a name", &[s("A"), s("A"), s("A")], (20, 3)),
        closed(
            "three of a name, the simple one last",
            &[o("A"), o("A"), s("A")],
            (20, 2),
        ),
        closed("equal spellings", &[o("T"), o("T")], (20, 3)),
        closed("underscores alone", &[o("_"), s("__")], (20, 2)),
        closed("underscores and nothing", &[s(""), o("_")], (20, 3)),
        closed(
            "no underscore, no change",
            &[s("ab"), s("Ab"), s("aB")],
            (0, 5),
        ),
        closed(
            "a prefix is a part of the name",
            &[s("my:a_b"), s("AB")],
            (0, 4),
        ),
        closed("a prefix on both", &[s("my:a_b"), s("My:aB")], (20, 3)),
        closed(
            "elements and types of one name",
            &[e("A"), s("A"), e("A"), e("a_")],
            (0, 6),
        ),
        closed(
            "elements count in the place",
            &[e("A"), s("A"), e("A"), o("A")],
            (20, 5),
        ),
    ]
}

/// 20 among the other numbers, and types that are open.
fn numbers() -> Vec<Example> {
    let (s, c, o) = (simple, complex, opaque);
    let bad = |name: &str| simple_of(name, "QName");
    let twice = || [s("AB"), s("AB")];
    let closed = |shows, heads: &[Vec<Row>], given| example(shows, heads, 0, ROOMY, given);
    vec![
        closed("13 behind a pair", &[s("AB"), s("AB"), bad("Q")], (13, 4)),
        closed("13 before a pair", &[bad("Q"), s("AB"), o("AB")], (13, 2)),
        closed("13 for the first of a pair", &[bad("A"), s("A")], (13, 2)),
        closed("13 for the second of a pair", &[s("A"), bad("A")], (13, 3)),
        closed(
            "13 for both of a pair",
            &[o("X"), bad("A"), bad("a_")],
            (13, 3),
        ),
        example("14 before 20", &twice(), 0, (60, 9, 63), (14, 0)),
        example("20 before 15", &twice(), 0, (20, 0, 64), (20, 3)),
        example("1 before 20", &twice(), 0, (25, 9, 64), (1, 0)),
        example(
            "an open complex type",
            &[s("AB"), o("AB")],
            3,
            ROOMY,
            (0, 3),
        ),
        example(
            "an open simple type",
            &[o("AB"), s("a_b")],
            2,
            ROOMY,
            (0, 3),
        ),
        example(
            "an open simple type that is refused later",
            &[o("AB"), bad("a_b")],
            2,
            ROOMY,
            (0, 3),
        ),
        example(
            "an open type behind a pair",
            &[c("AB"), c("AB"), s("AB")],
            2,
            ROOMY,
            (20, 4),
        ),
        example(
            "the open type of a name beside one other",
            &[c("A"), s("B"), c("b_")],
            3,
            ROOMY,
            (0, 5),
        ),
    ]
}

/// All of them.
pub fn examples() -> Vec<Example> {
    [places(), numbers()].into_iter().flatten().collect()
}

/// The examples as cases for the definitions.
pub(crate) fn cases() -> Vec<Case> {
    let case = |example: Example| Case {
        group: "types of one name",
        shows: example.shows.to_owned(),
        call: Call::Lower(example.sheet, example.graph, example.scratch),
    };
    examples().into_iter().map(case).collect()
}
