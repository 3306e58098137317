//! The schema written back: `lubiksan_write` compared with the model of order 8, its texts with other parsers, and read again.
//!
//! | module | tries |
//! |---|---|
//! | `check` | one writing compared, one text judged by others, one round trip |
//! | `small` | every short list of items, finished and open |
//! | `values` | every byte in every text, every short value, every character reference, and the place of each kind of fault |
//! | `longer` | random schemas, good sheets that no reading reaches, odd values, damaged sheets |
//! | `limits` | lengths around the limits, texts of 65,536 bytes, the largest sheets |
//! | `schemas` | the real schemas, under both choices |

pub mod check;
pub mod limits;
pub mod longer;
pub mod schemas;
pub mod small;
pub mod values;

mod call;

pub use call::write;
