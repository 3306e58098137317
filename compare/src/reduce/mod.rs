//! The reduction of order 6, a second graph with only what the roots use, and the test of a graph's form, compared with a model
//! written apart from the definitions.
//!
//! | module | holds |
//! |---|---|
//! | `form` | the form of a graph sheet, row by row |
//! | `model` | the order: chains by repeated passes, and by a queue |
//! | `graphs` | graphs to try |
//! | `call`, `groups` | the calls of the static library, and the graphs that are compared (feature `ours`) |

#[cfg(feature = "ours")]
pub mod call;
pub mod form;
pub mod graphs;
#[cfg(feature = "ours")]
pub mod groups;
pub mod model;
