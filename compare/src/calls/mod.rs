//! The reading call, the clearing and the label call of the static library, compared with the model of paper 01
//! (number, place and both buffers) and with the handlers of the Rust (the state in the sheet).
//!
//! | module | holds |
//! |---|---|
//! | `check` | one call compared |
//! | `small` | every list of a few events in each context |
//! | `longer` | random documents, damaged, in pieces, on damaged sheets |
//! | `standard` | sheets cleared with the choice 1 of order 3 |
//! | `numbered` | the numbers of heads of order 5 |
//! | `counted` | the count of order 7 and the conversion |
//! | `written` | the cases of the definitions, lengths, the schemas |
//! | `numbers` | numbers and `unbounded` in every spelling, where an event has one |
//! | `labels` | the label call on rows of graphs, on any rows and word lists |

pub mod check;
pub mod counted;
pub mod labels;
pub mod longer;
pub mod numbered;
pub mod numbers;
pub mod small;
pub mod standard;
pub mod written;
