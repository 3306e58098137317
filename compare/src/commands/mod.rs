//! The subcommands.

#[cfg(feature = "ours")]
pub mod calls;
#[cfg(feature = "ours")]
pub mod columns;
pub mod definitions;
#[cfg(feature = "ours")]
pub mod leaves;
#[cfg(feature = "ours")]
pub mod lowerings;
#[cfg(feature = "ours")]
pub mod patterns;
pub mod prints;
#[cfg(feature = "ours")]
pub mod reduce;
#[cfg(feature = "ours")]
pub mod texts;
pub mod vectors;
#[cfg(feature = "ours")]
pub mod writes;

use std::fmt::Display;
use std::process::ExitCode;

/// 2, with the words on standard error.
pub fn failed(command: &str, words: &dyn Display) -> ExitCode {
    eprintln!("{command}: {words}");
    ExitCode::from(2)
}
