//! The command `bindings`.

use std::fs;
use std::path::{Path, PathBuf};

use lubiksan::{Graph, SchemaSheet};

use super::make::Wanted;
use super::own::Own;
use super::package::{crate_of, module_of, Made, Modules};
use crate::args::{Bindings, Command};
use crate::commands::{most, say_way, warn};
use crate::failure::{named, say, Failure};
use crate::losses;
use crate::names::Names;
use crate::notkept::NotKept;
use crate::output::write_output;
use crate::places::Places;
use crate::reading::{lowered, read_whole};
use crate::source::{bytes_of, Source};
use crate::{stored, stored_graph};

/// Makes a crate, or one file, for some schemas.
///
/// # Errors
///
/// [`Failure`]; nothing is written where a schema is refused.
pub fn run(command: &Command, arguments: &Bindings) -> Result<(), Failure> {
    let mut modules = Modules::default();
    for file in &arguments.files {
        let made = added(command, file, &mut modules, arguments.wanted)?;
        tell(command, file, &made)?;
    }
    if arguments.module {
        return write_output(arguments.output.as_deref(), module_of(&modules).as_bytes());
    }
    let Some(folder) = &arguments.output else {
        return Err(Failure::Usage("--output is needed, or --module".to_owned()));
    };
    written(folder, crate_of(&modules, folder))
}

/// Adds a schema to the modules.
fn added(
    command: &Command,
    file: &Path,
    modules: &mut Modules,
    wanted: Wanted,
) -> Result<Made, Failure> {
    let bytes = bytes_of(file).map_err(|error| Failure::input(file, &error))?;
    if stored::is_stored(&bytes) || stored_graph::is_stored(&bytes) {
        let words = "it is a stored sheet or graph; bindings are made from the XSD file";
        return Err(Failure::Refused(format!("{}: {words}", named(file))));
    }
    let source = Source::of(file, bytes)?;
    say_way(command, &source);
    let sheet = read_whole(&source, command.read_as)?;
    warn(command, losses::lines(&source, &sheet))?;
    let graph = lowered(file, Some(&source), &sheet)?;
    do_not_meet(&source, &sheet, &graph)?;
    let not_kept = NotKept::of(&source, &sheet);
    modules.add(&source, &graph, &not_kept, wanted)
}

/// Names that meet are a refusal; a reference by a prefix of the schema's own namespace, whose type the graph does not find, is none.
fn do_not_meet(source: &Source, sheet: &SchemaSheet<'_>, graph: &Graph<'_>) -> Result<(), Failure> {
    let mut names = Names::of(sheet, graph);
    let known = graph.types().map(|found| found.name().to_owned()).collect();
    let own = Own::of(source.document());
    let is_own = |name: &String| own.named(name, &known).is_some();
    names
        .meetings
        .retain(|meeting| !meeting.missing.as_ref().is_some_and(is_own));
    if names.meetings.is_empty() {
        return Ok(());
    }
    let places = Places::of(source, sheet);
    let place = |row: usize| match places.of_row(row) {
        Some(at) => source.at(at, ""),
        None => format!("{}: ", named(source.path())),
    };
    Err(Failure::Refused(names.words(place)))
}

/// What is followed and what is not kept, on standard error.
fn tell(command: &Command, file: &Path, made: &Made) -> Result<(), Failure> {
    let shown = |lines: &[String], what: &str| {
        let more = lines.len().saturating_sub(most(command));
        let mut shown: Vec<String> = lines.iter().take(most(command)).cloned().collect();
        if more > 0 {
            shown.push(format!(
                "{}: and {more} more, --verbose says all",
                named(file)
            ));
        }
        let count = lines.len();
        let places = if count == 1 { "place" } else { "places" };
        shown.push(format!("{}: {count} {places} {what}", named(file)));
        shown
    };
    if !made.followed.is_empty() && !command.quiet {
        let lines = shown(
            &made.followed,
            "where the bindings follow the schema and not the graph",
        );
        lines.iter().for_each(|line| say(line));
    }
    match made.lost.is_empty() {
        true => Ok(()),
        false => warn(command, shown(&made.lost, "not kept in the bindings")),
    }
}

/// Writes the files of a crate below a folder.
fn written(folder: &Path, files: Vec<(PathBuf, String)>) -> Result<(), Failure> {
    let inner = folder.join("src/support");
    fs::create_dir_all(&inner).map_err(|error| Failure::output(&inner, &error))?;
    for (path, text) in files {
        write_output(Some(&folder.join(path)), text.as_bytes())?;
    }
    Ok(())
}
