//! Lists of events to try: written ones for the sentences of paper 01, and random ones.

pub mod accented;
mod random;
mod written;

pub use random::{document, messed, odd_events};
pub use written::{written, Written};
