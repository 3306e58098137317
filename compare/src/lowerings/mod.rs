//! The lowering call of the static library, compared with the model of paper 01 (number, place, graph, scratch) and with the unchanged
//! `lower` of the Rust (the type graph that the graph sheet says).
//!
//! | module | holds |
//! |---|---|
//! | `check` | one lowering compared, and the rooms that are tried |
//! | `generate` | random schemas with types of every kind whose names meet by normalising |
//! | `small` | every list of a few types |
//! | `longer` | random schemas, documents, sheets that no reading reaches, damaged ones |
//! | `repeated` | types of one name |
//! | `blocks` | types of one name in graphs too small for all heads at once, of order 11 |
//! | `limits` | lengths around the limits, the largest graphs |
//! | `runs` | lists of readings and lowerings |
//! | `notes` | the same lists with other notes in attributes, of order 14 |
//! | `written` | the cases of the definitions, the schemas |

pub mod blocks;
pub mod check;
pub mod generate;
pub mod limits;
pub mod longer;
pub mod notes;
pub mod repeated;
pub mod runs;
pub mod small;
pub mod written;
