//! Order 1: the tape of a text by the static library, compared with the model (number, place and every mark),
//! with quick-xml's events on texts that both accept, and with the verdicts of expat and libxml2.
//!
//! | module | holds |
//! |---|---|
//! | `specimens` | texts with the numbers and tapes that the readings of order 1 give them |
//! | `check` | one text compared |
//! | `explained` | where the other parsers differ by intention |
//! | `small` | every short text over bytes and words that matter, in each place of a document |
//! | `longer` | random documents, the schemas, and changes of both |
//! | `limits` | lengths, depths and counts around the limits, each byte and character in each place |

/// How many texts are compared.
#[derive(Clone, Copy, Debug, PartialEq, Eq)]
pub enum Extent {
    /// Over a million, for the gate.
    Gate,
    /// All of them.
    All,
}

#[cfg(feature = "ours")]
pub mod check;
#[cfg(feature = "ours")]
mod explained;
#[cfg(feature = "ours")]
pub mod limits;
#[cfg(feature = "ours")]
pub mod longer;
#[cfg(feature = "ours")]
pub mod small;
pub mod specimens;
