//! A model of paper 01, written from the paper: a state is the list of the sheet's rows with their
//! texts, and an event changes these rows.
//!
//! | module | the paper's part |
//! |---|---|
//! | `sheet` | rows of ten numbers, how pairs are packed |
//! | `state` | what a schema sheet says, and when it is good |
//! | `text` | order 12: what a text is |
//! | `number` | numbers and `unbounded`, as order 2 spells them |
//! | `event` | what an event does |
//! | `reading` | the tape, clearing, the reading call |
//! | `graph`, `back` | the graph sheet of a type graph, and the type graph that a sheet says |
//! | `lowering` | the lowering call; the Rust's `lower` gives the graph |
//! | `repeated` | types of one name, which order 4 refuses |
//! | `label` | the label call |
//! | `tree` | order 3's choice 1 anew, over the tree of the tags |
//! | `xml` | order 1: the tape of a text |
//! | `written` | order 8: the schema written back, as a tree of tags |
//! | `agree` | the model against the handlers of parser.rs, event by event |

pub mod agree;
pub mod back;
pub mod event;
pub mod graph;
pub mod label;
pub mod lowering;
pub mod number;
pub mod reading;
pub mod repeated;
pub mod sheet;
pub mod state;
pub mod text;
pub mod tree;
pub mod written;
pub mod xml;

/// A returned number with its place.
#[derive(Clone, Copy, Debug, PartialEq, Eq)]
pub struct Answer {
    pub number: u32,
    pub place: u32,
}

/// The answer of `number` and `place`.
pub fn answer(number: u32, place: u32) -> Answer {
    Answer { number, place }
}
