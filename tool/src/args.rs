//! The command line.

use std::ffi::OsString;
use std::path::PathBuf;
use std::time::Duration;

use clap::builder::PossibleValuesParser;
use clap::error::ErrorKind;
use clap::{value_parser, Arg, ArgAction, ArgMatches, Command as Parser};

use lubiksan::ReadAs;

use crate::bindings::Wanted;
use crate::failure::{escaped_but, Failure};
use crate::formats::dot::Part;
use crate::output::write_output;

/// How a graph is shown.
#[derive(Clone, Copy, Debug, PartialEq, Eq)]
pub enum Format {
    /// For reading.
    Text,
    /// docs/GRAPH.md.
    Json,
    /// For Graphviz.
    Dot,
    /// One page for a browser.
    Html,
    /// Rust source.
    Rust,
    /// What the printing program prints.
    Rows,
    /// A stored graph, which every command that takes a graph takes again.
    Stored,
}

/// The form in which a schema is written back.
#[derive(Clone, Copy, Debug, PartialEq, Eq)]
pub struct TextForm {
    /// Each tag on a line of its own.
    pub pretty: bool,
    /// With what every schema of ISO 20022 has and no sheet keeps.
    pub iso20022: bool,
}

/// What of a graph is shown.
#[derive(Clone, Debug, Default, PartialEq, Eq)]
pub struct Shown {
    /// Without events, files and lines.
    pub no_places: bool,
    /// The path of the source from the folder of the file.
    pub relative: bool,
    /// In `dot` a node for every type.
    pub all_nodes: bool,
    /// In `dot` this part alone.
    pub part: Part,
}

/// A command with its arguments.
#[derive(Clone, Debug, PartialEq, Eq)]
pub enum Action {
    /// Nothing more to do: help was shown.
    Nothing,
    /// `graph`
    Graph {
        /// An XSD, a stored sheet or a stored graph.
        file: PathBuf,
        /// How it is shown.
        format: Format,
        /// Where it is written.
        output: Option<PathBuf>,
        /// A sheet that is not whole is taken.
        partial: bool,
        /// What of it is shown.
        shown: Shown,
    },
    /// `names`
    Names {
        /// An XSD, a stored sheet or a stored graph.
        file: PathBuf,
        /// A sheet that is not whole is taken.
        partial: bool,
    },
    /// `patterns`
    Patterns {
        /// An XSD or a stored sheet.
        file: PathBuf,
    },
    /// `write`
    Write {
        /// An XSD or a stored sheet.
        file: PathBuf,
        /// Where it is written.
        output: Option<PathBuf>,
        /// The form of the text.
        form: TextForm,
        /// A sheet that is not whole is taken.
        partial: bool,
    },
    /// `read`
    Read {
        /// The XSD.
        file: PathBuf,
        /// The stored sheet.
        sheet: PathBuf,
        /// At most so many events.
        events: usize,
        /// How long to wait for the lock.
        wait: Duration,
        /// Begin anew.
        restart: bool,
    },
    /// `bindings`
    Bindings(Bindings),
    /// `diff`
    Diff(Diff),
    /// `shelf`
    Shelf(Shelf),
    /// `check`
    Check {
        /// The stored sheet.
        sheet: PathBuf,
    },
    /// `tape`
    Tape {
        /// The XSD.
        file: PathBuf,
        /// Where the tape is written.
        output: PathBuf,
    },
}

/// The arguments of `bindings`.
#[derive(Clone, Debug, PartialEq, Eq)]
pub struct Bindings {
    /// The schemas.
    pub files: Vec<PathBuf>,
    /// The folder of the crate, or the file with `--module`.
    pub output: Option<PathBuf>,
    /// One file in the place of a crate.
    pub module: bool,
    /// Which types, and what is done where the schema can't be followed.
    pub wanted: Wanted,
}

/// The arguments of `diff`.
#[derive(Clone, Debug, PartialEq, Eq)]
pub struct Diff {
    /// An XSD, a stored sheet or a stored graph.
    pub old: PathBuf,
    /// Another one.
    pub new: PathBuf,
    /// JSON in the place of text.
    pub json: bool,
    /// The exit status tells whether they differ.
    pub exit_code: bool,
    /// Breaking changes alone.
    pub breaking: bool,
    /// The path of each source from the folder of its file.
    pub relative: bool,
}

/// The arguments of `shelf`.
#[derive(Clone, Debug, PartialEq, Eq)]
pub struct Shelf {
    /// The folder of the sheets.
    pub folder: PathBuf,
    /// The schemas.
    pub files: Vec<PathBuf>,
    /// How many at once; 0 is as many as the machine has cores.
    pub jobs: usize,
    /// How long to wait for the lock.
    pub wait: Duration,
    /// Begin anew.
    pub restart: bool,
}

/// A parsed command line.
#[derive(Clone, Debug, PartialEq, Eq)]
pub struct Command {
    /// What is to be done.
    pub action: Action,
    /// No warnings and no progress.
    pub quiet: bool,
    /// Say who reads each text.
    pub verbose: bool,
    /// What was not kept is a refusal.
    pub strict: bool,
    /// Of a graph only what its roots use.
    pub used: bool,
    /// How a file is read into a new sheet.
    pub read_as: ReadAs,
}

/// The command of these arguments.
///
/// # Errors
///
/// [`Failure::Usage`] with clap's words.
pub fn parsed(args: impl Iterator<Item = OsString>) -> Result<Command, Failure> {
    match parser().try_get_matches_from(args) {
        Ok(matches) => Ok(command(&matches)),
        Err(error) => shown(&error),
    }
}

/// Help goes to standard output; anything else is wrong use.
fn shown(error: &clap::Error) -> Result<Command, Failure> {
    let text = error.to_string();
    match error.kind() {
        ErrorKind::DisplayHelp | ErrorKind::DisplayVersion => {
            write_output(None, text.as_bytes())?;
            Ok(Command {
                action: Action::Nothing,
                quiet: true,
                verbose: false,
                strict: false,
                used: false,
                read_as: ReadAs::Standard,
            })
        }
        _ => Err(Failure::Usage(escaped_but(text.trim_end(), |c| c == '\n'))),
    }
}

/// The definitions of the command line.
pub fn parser() -> Parser {
    Parser::new("lubiksan")
        .version(env!("CARGO_PKG_VERSION"))
        .about("From an ISO 20022 schema to its type graph")
        .after_help("Exit status: 0 done, 1 the input is refused, 2 wrong use, 3 the machine (trying again may help).")
        .subcommand_required(true)
        .arg_required_else_help(true)
        .arg(flag("quiet", "No warnings and no progress").global(true))
        .arg(
            flag("verbose", "Say who reads each text, the library or quick-xml, and every place that the graph does not keep")
                .global(true)
                .conflicts_with("quiet"),
        )
        .subcommand(graph())
        .subcommand(names())
        .subcommand(patterns())
        .subcommand(write())
        .subcommand(bindings())
        .subcommand(diff())
        .subcommand(read())
        .subcommand(shelf())
        .subcommand(Parser::new("check").about("Is a stored sheet good, and how far is it").arg(path("SHEET").help("A stored sheet")))
        .subcommand(tape())
}

fn graph() -> Parser {
    let formats =
        PossibleValuesParser::new(["text", "json", "html", "dot", "rust", "rows", "stored"]);
    Parser::new("graph")
        .about("The type graph of an XSD file, a stored sheet or a stored graph")
        .arg(
            path("FILE").help("An XSD file, a stored sheet or a stored graph; - is standard input"),
        )
        .arg(
            Arg::new("format")
                .long("format")
                .value_parser(formats)
                .default_value("text")
                .help("How it is shown"),
        )
        .arg(option("output", "OUT").help("The file that is written; whole or as it was"))
        .arg(flag(
            "partial",
            "Take a stored sheet that is not read to its end",
        ))
        .arg(used())
        .arg(flag(
            "no-places",
            "Without events, files and lines, so that two outputs can be compared",
        ))
        .arg(relative().conflicts_with("no-places"))
        .arg(flag(
            "all-nodes",
            "In dot a node for every type, newtypes and code lists too",
        ))
        .arg(
            Arg::new("root")
                .long("root")
                .value_name("NAME")
                .help("In dot what this root element or type leads to"),
        )
        .arg(number("depth").help("In dot so many steps from the root"))
        .arg(as_original())
        .arg(strict())
}

fn relative() -> Arg {
    flag(
        "relative",
        "Paths from the folder of the file on, so that the output is the same wherever that stands",
    )
}

fn names() -> Parser {
    Parser::new("names")
        .about(
            "Every XML name with its Rust name; names that meet are marked and end with status 1",
        )
        .arg(
            path("FILE").help("An XSD file, a stored sheet or a stored graph; - is standard input"),
        )
        .arg(flag(
            "partial",
            "Take a stored sheet that is not read to its end",
        ))
        .arg(used())
        .arg(as_original())
        .arg(strict())
}

fn patterns() -> Parser {
    Parser::new("patterns")
        .about(
            "Every pattern with its type and place, and whether it is a regular expression of XML Schema; one that is not ends with status 1",
        )
        .arg(path("FILE").help("An XSD file, a stored sheet as far as it is read, or a stored graph"))
        .arg(as_original())
}

fn write() -> Parser {
    Parser::new("write")
        .about("The schema written back as XSD: what the library keeps of it, and nothing else")
        .arg(path("FILE").help("An XSD file or a stored sheet; - is standard input"))
        .arg(option("output", "OUT").help("The file that is written; whole or as it was"))
        .arg(flag(
            "pretty",
            "Each tag on a line of its own, indented; the library's text has no white space between tags",
        ))
        .arg(flag(
            "iso20022",
            "Add what every ISO 20022 schema has and no sheet keeps, for validators: the default namespace and elementFormDefault",
        ))
        .arg(flag(
            "partial",
            "Take a stored sheet that is not read to its end; a type that is still open is left out",
        ))
        .arg(as_original())
        .arg(strict())
}

fn bindings() -> Parser {
    Parser::new("bindings")
        .about(
            "A Rust crate that reads and writes the messages of XSD files, by serde and quick-xml",
        )
        .arg(
            path("FILE")
                .num_args(1..)
                .help("XSD files; each becomes a module"),
        )
        .arg(
            option("output", "DIR")
                .required_unless_present("module")
                .help("The folder of the crate, or with --module the file that is written"),
        )
        .arg(flag(
            "module",
            "One file with a module for each schema, in the place of a crate",
        ))
        .arg(flag("all", "Also the types that no root element reaches"))
        .arg(flag(
            "lossy",
            "Leave out what can't be followed, such as any content, and say so",
        ))
        .arg(as_original())
        .arg(strict())
}

fn diff() -> Parser {
    Parser::new("diff")
        .about("What changed between two schemas; what makes old messages invalid is marked as breaking")
        .arg(path("OLD").help("An XSD file, a stored sheet or a stored graph"))
        .arg(path("NEW").help("An XSD file, a stored sheet or a stored graph"))
        .arg(
            Arg::new("format")
                .long("format")
                .value_parser(PossibleValuesParser::new(["text", "json"]))
                .default_value("text")
                .help("How it is shown"),
        )
        .arg(flag(
            "exit-code",
            "End with 1 where they differ; with --breaking with 2 where a change is breaking",
        ))
        .arg(flag("breaking", "Breaking changes alone"))
        .arg(relative())
        .arg(as_original())
}

fn read() -> Parser {
    Parser::new("read")
        .about("Read on where a stored sheet stands")
        .arg(path("FILE").help("An XSD file; - is standard input"))
        .arg(
            option("sheet", "SHEET")
                .required(true)
                .help("The stored sheet; begun where it is not there"),
        )
        .arg(number("events").help("At most so many events more"))
        .arg(wait("sheet"))
        .arg(flag("restart", "Begin the sheet anew"))
        .arg(as_original())
        .arg(strict())
}

fn shelf() -> Parser {
    Parser::new("shelf")
        .about("A stored sheet for each schema in a folder; goes on where it was stopped")
        .arg(path("DIR").help("The folder of the stored sheets, made where it is not there"))
        .arg(
            path("FILE")
                .num_args(1..)
                .help("XSD files; the sheet of a.xsd is DIR/a.sheet"),
        )
        .arg(number("jobs").help("How many at once [default: one for each core]"))
        .arg(wait("shelf or one of its sheets"))
        .arg(flag("restart", "Begin the sheets anew"))
        .arg(as_original())
        .arg(strict())
}

fn tape() -> Parser {
    Parser::new("tape")
        .about("The printing program's input; OUT.000, OUT.001 .. where it takes several pieces")
        .arg(path("FILE").help("An XSD file; - is standard input"))
        .arg(
            option("output", "OUT")
                .required(true)
                .help("The file that is written"),
        )
}

fn path(name: &'static str) -> Arg {
    Arg::new(name)
        .required(true)
        .value_parser(value_parser!(PathBuf))
}

fn option(name: &'static str, value: &'static str) -> Arg {
    Arg::new(name)
        .long(name)
        .value_name(value)
        .value_parser(value_parser!(PathBuf))
}

fn number(name: &'static str) -> Arg {
    Arg::new(name)
        .long(name)
        .value_name("N")
        .value_parser(value_parser!(u64))
}

fn wait(what: &str) -> Arg {
    number("wait").value_name("SECONDS").help(format!(
        "How many seconds to wait for another process on the {what}"
    ))
}

fn flag(name: &'static str, help: &'static str) -> Arg {
    Arg::new(name)
        .long(name)
        .action(ArgAction::SetTrue)
        .help(help)
}

fn strict() -> Arg {
    flag(
        "strict",
        "Refuse a schema of which the graph, or the text written back, does not keep something",
    )
}

fn used() -> Arg {
    flag(
        "used",
        "Only the types that a root element leads to, by any number of references",
    )
}

fn as_original() -> Arg {
    flag(
        AS_ORIGINAL,
        "Let any close at the top level end the schema, as the Rust original does",
    )
}

const AS_ORIGINAL: &str = "as-original";

fn command(matches: &ArgMatches) -> Command {
    let (action, inner) = match matches.subcommand() {
        Some((name, inner)) => (action(name, inner), inner),
        None => (Action::Nothing, matches),
    };
    let set = |name: &str| {
        let found = inner.try_get_one::<bool>(name).ok().flatten();
        found.is_some_and(|&set| set)
    };
    Command {
        action,
        quiet: matches.get_flag("quiet") || inner.get_flag("quiet"),
        verbose: matches.get_flag("verbose") || inner.get_flag("verbose"),
        strict: set("strict"),
        used: set("used"),
        read_as: match set(AS_ORIGINAL) {
            true => ReadAs::Original,
            false => ReadAs::Standard,
        },
    }
}

fn action(name: &str, matches: &ArgMatches) -> Action {
    let path = |name: &str| {
        matches
            .get_one::<PathBuf>(name)
            .cloned()
            .unwrap_or_default()
    };
    match name {
        "graph" => Action::Graph {
            file: path("FILE"),
            format: format(matches),
            output: matches.get_one::<PathBuf>("output").cloned(),
            partial: matches.get_flag("partial"),
            shown: Shown {
                no_places: matches.get_flag("no-places"),
                relative: matches.get_flag("relative"),
                all_nodes: matches.get_flag("all-nodes"),
                part: Part {
                    root: matches.get_one::<String>("root").cloned(),
                    depth: number_of(matches, "depth"),
                },
            },
        },
        "names" => Action::Names {
            file: path("FILE"),
            partial: matches.get_flag("partial"),
        },
        "patterns" => Action::Patterns { file: path("FILE") },
        "write" => Action::Write {
            file: path("FILE"),
            output: matches.get_one::<PathBuf>("output").cloned(),
            form: TextForm {
                pretty: matches.get_flag("pretty"),
                iso20022: matches.get_flag("iso20022"),
            },
            partial: matches.get_flag("partial"),
        },
        "read" => Action::Read {
            file: path("FILE"),
            sheet: path("sheet"),
            events: number_of(matches, "events").unwrap_or(usize::MAX),
            wait: seconds(matches),
            restart: matches.get_flag("restart"),
        },
        "bindings" => Action::Bindings(bindings_of(matches)),
        "diff" => Action::Diff(Diff {
            old: path("OLD"),
            new: path("NEW"),
            json: matches.get_one::<String>("format").map(String::as_str) == Some("json"),
            exit_code: matches.get_flag("exit-code"),
            breaking: matches.get_flag("breaking"),
            relative: matches.get_flag("relative"),
        }),
        "shelf" => Action::Shelf(shelf_of(matches)),
        "check" => Action::Check {
            sheet: path("SHEET"),
        },
        _ => Action::Tape {
            file: path("FILE"),
            output: path("output"),
        },
    }
}

fn bindings_of(matches: &ArgMatches) -> Bindings {
    let files = matches.get_many::<PathBuf>("FILE").into_iter().flatten();
    Bindings {
        files: files.cloned().collect(),
        output: matches.get_one::<PathBuf>("output").cloned(),
        module: matches.get_flag("module"),
        wanted: Wanted {
            all: matches.get_flag("all"),
            lossy: matches.get_flag("lossy"),
            whole: false,
        },
    }
}

fn shelf_of(matches: &ArgMatches) -> Shelf {
    let files = matches.get_many::<PathBuf>("FILE").into_iter().flatten();
    Shelf {
        folder: matches
            .get_one::<PathBuf>("DIR")
            .cloned()
            .unwrap_or_default(),
        files: files.cloned().collect(),
        jobs: number_of(matches, "jobs").unwrap_or(0),
        wait: seconds(matches),
        restart: matches.get_flag("restart"),
    }
}

fn seconds(matches: &ArgMatches) -> Duration {
    Duration::from_secs(number_of(matches, "wait").unwrap_or(0) as u64)
}

fn number_of(matches: &ArgMatches, name: &str) -> Option<usize> {
    let number = *matches.get_one::<u64>(name)?;
    Some(usize::try_from(number).unwrap_or(usize::MAX))
}

fn format(matches: &ArgMatches) -> Format {
    match matches.get_one::<String>("format").map(String::as_str) {
        Some("json") => Format::Json,
        Some("dot") => Format::Dot,
        Some("html") => Format::Html,
        Some("rust") => Format::Rust,
        Some("rows") => Format::Rows,
        Some("stored") => Format::Stored,
        _ => Format::Text,
    }
}
