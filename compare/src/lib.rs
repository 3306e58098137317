//! The comparison of the proved calls with the Rust that they carry over: parser.rs and lower.rs of mx20022-codegen, unchanged, a model of
//! paper 01, other parsers, and the cases on which they are compared. The program is `src/main.rs`, benchmarks stand in `benches/`.
//!
//! | module | holds |
//! |---|---|
//! | `xsd`, `ir` | the four Rust files as published |
//! | `leaves` | the seven text leaves of these files as functions over `&str` |
//! | `names` | names of the field and changed forms of names |
//! | `random` | a fixed-seed generator |
//! | `samples` | the fixed sample behind crates/replay |
//! | `cases` | the texts of the comparison with the static library |
//! | `ours` | the functions of the static library (feature `ours`) |
//! | `builtins` | names beside the built-in ones, compared (feature `ours`) |
//! | `checks`, `tally` | one text compared, and the count of cases and differences |
//! | `tape`, `tapes` | schema events as tape and as XML, and lists of events to try |
//! | `paper` | a model of paper 01, with the Rust as the judge of its handlers and of lowering |
//! | `reader`, `grapher` | clearing and reading, lowering and labels of the static library (feature `ours`) |
//! | `calls` | clearing, reading and labels compared with the model and with the handlers of the Rust |
//! | `lowerings` | lowering compared with the model and with `lower` of the Rust |
//! | `texts` | the tape of a text compared with the model of order 1 and with other parsers |
//! | `columns` | rows as columns and back compared with the model of order 10 |
//! | `writes` | the schema written back compared with the model of order 8, other parsers, and read again |
//! | `parsers` | quick-xml's events as a tape, and the verdicts of expat and libxml2 |
//! | `patterns` | the pattern call compared with an Earley parser and a descent over the productions |
//! | `reduce` | the reduction of a graph to what its roots use, and a graph's form, compared with the model of order 6 |
//! | `crowded` | names that all stand in one bucket of the index of names |
//! | `schemas` | where the real schemas stand |
//! | `events` | the events of an XML text |
//! | `prints` | the printing program: what it prints by the model, and inputs to try |
//! | `definitions` | cases for the definitions under crates/, as statements of the proof language |

#![deny(unsafe_code)]

#[cfg(feature = "ours")]
pub mod builtins;
#[cfg(feature = "ours")]
pub mod calls;
pub mod cases;
#[cfg(feature = "ours")]
pub mod checks;
#[cfg(feature = "ours")]
pub mod columns;
pub mod crowded;
pub mod definitions;
mod derived;
pub mod events;
#[cfg(feature = "ours")]
pub mod grapher;
pub mod ir;
pub mod leaves;
#[cfg(feature = "ours")]
pub mod lowerings;
pub mod names;
#[cfg(feature = "ours")]
pub mod ours;
pub mod paper;
pub mod parsers;
pub mod patterns;
pub mod prints;
pub mod random;
#[cfg(feature = "ours")]
pub mod reader;
pub mod reduce;
pub mod samples;
pub mod schemas;
pub mod tally;
pub mod tape;
pub mod tapes;
pub mod texts;
#[cfg(feature = "ours")]
pub mod writes;
pub mod xsd;
