//! The program `lubiksan`: from an XSD file to its type graph. Whatever decides is the proved library behind the crate
//! `lubiksan`; this crate reads files, cuts them into pieces, stores sheets and puts words to refusals.
//!
//! | Module | Holds |
//! |---|---|
//! | [`document`], [`taped`], [`xml`] | the events of a text: the crate `lubiksan-xml` |
//! | [`source`], [`namespace`], [`reading`] | a schema file; of which namespace it is; its events read into a schema sheet |
//! | [`explain`], [`losses`] | a refusal in words; what of the file was not kept |
//! | [`follow`], [`notkept`] | what the library's reader does with each tag; where the graph is not the schema |
//! | [`patterns`] | the patterns of a schema, each judged by the library |
//! | [`writing`] | the schema written back, as the library's text or indented |
//! | [`origins`] | where a root or type comes from, by the number of its event |
//! | [`stored`], [`stored_graph`], [`packed`], [`output`] | stored sheets, stored graphs, the packed part of both; files that are whole or as they were |
//! | [`formats`], [`names`], [`identifier`], [`places`] | the graph as text, JSON, dot, Rust and rows; names that meet, and where |
//! | [`bindings`], [`diff`] | crates that read and write messages; what changed between two schemas |
//! | [`shelf`], [`lock`], [`interrupt`], [`progress`] | many schemas side by side |
//! | [`args`], [`commands`], [`failure`] | the command line |

#![deny(missing_docs)]
#![deny(unsafe_code)]

pub mod args;
pub mod bindings;
pub mod commands;
pub mod diff;
pub mod explain;
pub mod failure;
pub mod follow;
pub mod formats;
pub mod identifier;
pub mod interrupt;
pub mod light;
pub mod lock;
pub mod losses;
pub mod names;
pub mod namespace;
pub mod notkept;
pub mod origins;
pub mod output;
pub mod packed;
pub mod patterns;
pub mod places;
pub mod progress;
pub mod reading;
pub mod shelf;
pub mod source;
pub mod stored;
pub mod stored_graph;
pub mod writing;

use std::ffi::OsString;

pub use lubiksan_xml::{document, taped, xml};

/// Runs the command line and gives the exit status: 0 done, 1 the input is refused, 2 wrong use, 3 the machine.
pub fn run(args: impl Iterator<Item = OsString>) -> u8 {
    let done = linked()
        .and_then(|()| args::parsed(args))
        .and_then(|command| commands::run(&command));
    match done {
        Ok(()) => 0,
        Err(failure) => {
            failure.say();
            failure.status()
        }
    }
}

/// The archive is the one that the program was written for.
fn linked() -> Result<(), failure::Failure> {
    let checked = lubiksan::check_version();
    checked.map_err(|wrong| failure::Failure::Machine(wrong.to_string()))
}
