//! What changed between two schemas, and what of it makes old messages invalid.

mod changes;
mod print;
mod shape;

use std::path::Path;

use crate::args::{Command, Diff};
use crate::bindings::{schema, Wanted};
use crate::commands::{input, Input};
use crate::failure::{though_unread, Failure};
use crate::origins::beside;
use crate::output::write_output;
use changes::{changes, Change};
use shape::Shape;

/// Compares two schemas and prints what changed.
///
/// # Errors
///
/// [`Failure`]; [`Failure::Differ`] where the exit status is asked for and they differ.
pub fn run(command: &Command, arguments: &Diff) -> Result<(), Failure> {
    let (old, new) = shapes(command, arguments)?;
    let mut found = changes(&old, &new);
    if arguments.breaking {
        found.retain(|change| change.breaking);
    }
    let text = match arguments.json {
        true => {
            print::json(&old, &new, &found).map_err(|error| Failure::Machine(error.to_string()))?
        }
        false => print::text(&old, &new, &found),
    };
    though_unread(write_output(None, text.as_bytes()))?;
    match status(arguments, &found) {
        0 => Ok(()),
        status => Err(Failure::Differ(status)),
    }
}

/// With `--exit-code` 1 where they differ, with `--breaking` too 2 where a change is breaking.
fn status(arguments: &Diff, found: &[Change]) -> u8 {
    match (arguments.exit_code && !found.is_empty(), arguments.breaking) {
        (false, _) => 0,
        (true, false) => 1,
        (true, true) => 2,
    }
}

/// Both shapes: by the tags where those of both are at hand, else by the graphs.
fn shapes(command: &Command, arguments: &Diff) -> Result<(Shape, Shape), Failure> {
    let (old, new) = (&arguments.old, &arguments.new);
    let (before, after) = (input(command, old, false)?, input(command, new, false)?);
    let by_tags = (tagged(&before, old)?, tagged(&after, new)?);
    let (mut before, mut after) = match by_tags {
        (Some(before), Some(after)) => (before, after),
        _ => (graphed(&before, old)?, graphed(&after, new)?),
    };
    if arguments.relative {
        before.path = beside(&before.path, old);
        after.path = beside(&after.path, new);
    }
    Ok((before, after))
}

/// The shape by the tags of the source; none where it is not at hand.
fn tagged(input: &Input, file: &Path) -> Result<Option<Shape>, Failure> {
    let wanted = Wanted {
        all: true,
        lossy: true,
        whole: true,
    };
    input.with_graph(file, |graph| {
        input.with_source(|source| {
            let Some(source) = source else {
                return Ok(None);
            };
            let not_kept = input.not_kept(source);
            let schema = schema(source, graph, &not_kept, wanted)?;
            Ok(Some(Shape::of_schema(source.path(), &schema)))
        })
    })
}

fn graphed(input: &Input, file: &Path) -> Result<Shape, Failure> {
    input.with_graph(file, |graph| Ok(Shape::of_graph(file, graph)))
}
