//! The commands but `shelf`.

use std::path::{Path, PathBuf};
use std::time::Duration;

use lubiksan::{Context, Graph, Kind, ReadAs, SchemaSheet};

use crate::args::{Action, Command, Format, Shown, TextForm};
use crate::bindings;
use crate::diff;
use crate::document::Piece;
use crate::failure::{named, say, though_unread, Failure};
use crate::formats::dot::Part;
use crate::formats::{dot, dot_all, html, json, plural, rows, rust, text};
use crate::interrupt;
use crate::light;
use crate::lock;
use crate::losses::{self, Counts};
use crate::names::Names;
use crate::namespace;
use crate::notkept::{self, NotKept};
use crate::origins::Origins;
use crate::output::{remove_left_beside, write_output};
use crate::patterns::{self, Judged};
use crate::places::Places;
use crate::progress::Progress;
use crate::reading::{lowered, read_on, read_whole};
use crate::shelf;
use crate::source::{bytes_of, Source};
use crate::stored::{self, About, Begin, Stored};
use crate::stored_graph::{self, StoredGraph};
use crate::writing;
use crate::xml::Lines;

/// Runs a command.
///
/// # Errors
///
/// [`Failure`], which says how it ended.
pub fn run(command: &Command) -> Result<(), Failure> {
    match &command.action {
        Action::Nothing => Ok(()),
        Action::Graph {
            file,
            format,
            output,
            partial,
            shown,
        } => {
            only_in_dot(*format, shown)?;
            graph(
                command,
                (file, *partial),
                (*format, shown),
                output.as_deref(),
            )
        }
        Action::Names { file, partial } => names(command, file, *partial),
        Action::Patterns { file } => patterns_of(command, file),
        Action::Write {
            file,
            output,
            form,
            partial,
        } => write(command, file, output.as_deref(), *form, *partial),
        Action::Read {
            file,
            sheet,
            events,
            wait,
            restart,
        } => {
            let begin = Begin {
                restart: *restart,
                read_as: command.read_as,
            };
            read(command, file, sheet, *events, begin, *wait)
        }
        Action::Bindings(arguments) => bindings::run(command, arguments),
        Action::Diff(arguments) => diff::run(command, arguments),
        Action::Shelf(arguments) => shelf::run(command, arguments),
        Action::Check { sheet } => check(sheet),
        Action::Tape { file, output } => tape(command, file, output),
    }
}

/// What a command works on: a sheet to lower, or a stored graph.
enum Held {
    Sheet(SchemaSheet<'static>),
    Graph(Box<StoredGraph>),
}

/// What a file holds, and the source where it was just read.
pub(crate) struct Input {
    held: Held,
    source: Option<Source>,
    /// What a stored sheet or a stored graph was read from.
    about: Option<About>,
    /// Of the graph only what its roots use.
    used: bool,
}

impl Input {
    /// The sheet; none of a stored graph.
    fn sheet(&self) -> Option<&SchemaSheet<'static>> {
        match &self.held {
            Held::Sheet(sheet) => Some(sheet),
            Held::Graph(_) => None,
        }
    }

    /// What is made of the graph: of the sheet's, or of the stored one.
    pub(crate) fn with_graph<A>(
        &self,
        file: &Path,
        made: impl FnOnce(&Graph<'_>) -> Result<A, Failure>,
    ) -> Result<A, Failure> {
        let of = |graph: &Graph<'_>| match self.used {
            true => {
                let refused = |refusal| Failure::Refused(format!("{}: {refusal}", named(file)));
                made(&graph.reduced().map_err(refused)?)
            }
            false => made(graph),
        };
        match &self.held {
            Held::Sheet(sheet) => of(&lowered(file, self.source.as_ref(), sheet)?),
            Held::Graph(stored) => of(&stored.graph),
        }
    }

    /// The names of the sheet and its graph, or of the stored graph alone.
    fn names(&self, graph: &Graph<'_>) -> Names {
        match self.sheet() {
            Some(sheet) => Names::of(sheet, graph),
            None => Names::of_graph(graph),
        }
    }

    /// The patterns of the sheet, or those of the stored graph.
    fn patterns(&self) -> Vec<Judged<'_>> {
        match &self.held {
            Held::Sheet(sheet) => patterns::of(sheet),
            Held::Graph(stored) => patterns::of_graph(&stored.graph),
        }
    }

    /// A line for each pattern that is refused.
    fn refused_patterns(&self, file: &Path, source: Option<&Source>) -> Vec<String> {
        let mut refused = self.patterns();
        refused.retain(Judged::is_refused);
        patterns::lines(&refused, self.sheet(), (&named(file), source))
    }

    /// How the schema was read.
    fn read_as(&self) -> ReadAs {
        match &self.held {
            Held::Sheet(sheet) => sheet.read_as(),
            Held::Graph(stored) => stored.read_as,
        }
    }

    /// The events that were read.
    fn events_done(&self) -> u64 {
        match &self.held {
            Held::Sheet(sheet) => sheet.events_done() as u64,
            Held::Graph(stored) => stored.done,
        }
    }

    /// The bytes of the graph as a stored one.
    fn stored_graph(&self, graph: &Graph<'_>) -> Result<Vec<u8>, Failure> {
        let read_as = self.read_as();
        let mut about = match (&self.about, &self.source) {
            (Some(about), _) => about.clone(),
            (None, Some(source)) => About::of(source, read_as),
            (None, None) => return Err(Failure::Machine("the source is not known".to_owned())),
        };
        if self.used {
            // What was left out was not lost.
            about.counts = counts_of(graph);
        }
        stored_graph::encoded(graph, &about, self.events_done(), read_as)
    }

    /// What of the source the graph does not keep, of the events that were read.
    pub(crate) fn not_kept<'s>(&self, source: &'s Source) -> NotKept<'s> {
        NotKept::of_events(source, self.read_as(), self.events_done() as usize)
    }

    /// The source that was just read, or that of a stored sheet or graph where it is still there as it was.
    pub(crate) fn with_source<A>(&self, shown: impl Fn(Option<&Source>) -> A) -> A {
        let stored = || self.about.as_ref().and_then(About::source);
        match &self.source {
            Some(source) => shown(Some(source)),
            None => shown(stored().as_ref()),
        }
    }

    /// What is said of the places that the graph does not keep where the source of a stored sheet or graph is not at hand.
    fn unnamed(&self, file: &Path) -> Vec<String> {
        let why = "its source is not there as it was";
        let words = match self.about.as_ref().and_then(|about| about.not_kept) {
            Some(0) => return Vec::new(),
            Some(count) => format!("{}, and {why}", notkept::told(count as usize)),
            None => format!("what the graph does not keep is not known, {why}"),
        };
        vec![format!("{}: {words}", named(file))]
    }
}

/// The roots and types of a graph.
fn counts_of(graph: &Graph<'_>) -> Counts {
    Counts {
        elements: graph.roots().count(),
        types: graph.types().count(),
    }
}

/// What a file holds, which is an XSD, a stored sheet or a stored graph.
pub(crate) fn input(command: &Command, file: &Path, partial: bool) -> Result<Input, Failure> {
    let bytes = bytes_of(file).map_err(|error| Failure::input(file, &error))?;
    if stored::is_stored(&bytes) {
        let stored = stored::of_bytes(file, &bytes)?;
        stored::keeps_choice(file, &stored, command.read_as)?;
        return of_stored(command, file, stored, partial);
    }
    if stored_graph::is_stored(&bytes) {
        let stored = stored_graph::of_bytes(file, &bytes)?;
        return of_stored_graph(command, file, stored);
    }
    let source = Source::of(file, bytes)?;
    say_way(command, &source);
    let sheet = read_whole(&source, command.read_as)?;
    warn(command, losses::lines(&source, &sheet))?;
    Ok(Input {
        held: Held::Sheet(sheet),
        source: Some(source),
        about: None,
        used: command.used,
    })
}

fn of_stored(
    command: &Command,
    file: &Path,
    stored: Stored,
    partial: bool,
) -> Result<Input, Failure> {
    if !stored.is_whole() && !partial {
        let words = format!(
            "{}: only {} are done; --partial takes it so",
            named(file),
            stored.progress()
        );
        return Err(Failure::Refused(words));
    }
    let counts = losses::compared(stored.about.counts, losses::kept(&stored.sheet), "source");
    if stored.is_whole() && !counts.is_empty() {
        warn(command, vec![format!("{}: {counts}", named(file))])?;
    }
    Ok(Input {
        held: Held::Sheet(stored.sheet),
        source: None,
        about: Some(stored.about),
        used: command.used,
    })
}

fn of_stored_graph(command: &Command, file: &Path, stored: StoredGraph) -> Result<Input, Failure> {
    if command.read_as == ReadAs::Original && stored.read_as == ReadAs::Standard {
        let words = "its schema was read by the standard; --as-original is for a new one";
        return Err(Failure::Refused(format!("{}: {words}", named(file))));
    }
    let counts = losses::compared(stored.about.counts, counts_of(&stored.graph), "source");
    if stored.done == stored.about.events && !counts.is_empty() {
        warn(command, vec![format!("{}: {counts}", named(file))])?;
    }
    Ok(Input {
        about: Some(stored.about.clone()),
        held: Held::Graph(Box::new(stored)),
        source: None,
        used: command.used,
    })
}

/// With `--verbose`: who read the text. A warning where the schema is of another namespace.
pub fn say_way(command: &Command, source: &Source) {
    if command.verbose {
        say(&source.way());
    }
    if let Some(line) = namespace::warning(source).filter(|_| !command.quiet) {
        say(&line);
    }
}

/// What was not kept: a warning, or with `--strict` a refusal.
///
/// # Errors
///
/// [`Failure::Refused`] with `--strict`.
pub fn warn(command: &Command, lines: Vec<String>) -> Result<(), Failure> {
    if lines.is_empty() {
        return Ok(());
    }
    if command.strict {
        return Err(Failure::Refused(lines.join("\n")));
    }
    if !command.quiet {
        lines.iter().for_each(|line| say(line));
    }
    Ok(())
}

/// `--all-nodes`, `--root` and `--depth` are for the format dot.
fn only_in_dot(format: Format, shown: &Shown) -> Result<(), Failure> {
    let asked = shown.all_nodes || shown.part != Part::default();
    if asked && format != Format::Dot {
        let words = "--all-nodes, --root and --depth are for --format dot";
        return Err(Failure::Usage(words.to_owned()));
    }
    Ok(())
}

fn graph(
    command: &Command,
    (file, partial): (&Path, bool),
    (format, how): (Format, &Shown),
    output: Option<&Path>,
) -> Result<(), Failure> {
    if let Some(output) = output {
        remove_left_beside(output);
    }
    let made = input(command, file, partial).and_then(|input| {
        input.with_graph(file, |graph| {
            input.with_source(|source| {
                let not_kept = source.map(|source| input.not_kept(source));
                let mut lines = match source.zip(not_kept.as_ref()) {
                    Some((source, not_kept)) => not_kept.lines(source, most(command)),
                    None => input.unnamed(file),
                };
                if command.strict {
                    lines.extend(input.refused_patterns(file, source));
                }
                warn(command, lines)?;
                shown(
                    file,
                    (format, how),
                    &input,
                    graph,
                    (source, not_kept.as_ref()),
                )
            })
        })
    });
    match made {
        Ok(bytes) => write_output(output, &bytes),
        Err(Failure::Answered { lines, words }) if format == Format::Rows && output.is_none() => {
            though_unread(write_output(None, lines.as_bytes()))?;
            Err(Failure::Refused(words))
        }
        Err(failure) => Err(failure),
    }
}

/// So many places that are not kept are said.
pub fn most(command: &Command) -> usize {
    match command.verbose {
        true => usize::MAX,
        false => notkept::MOST,
    }
}

/// The source, where it is at hand, and what of it the graph does not keep.
type Known<'k> = (Option<&'k Source>, Option<&'k NotKept<'k>>);

/// The graph in a format.
fn shown(
    file: &Path,
    (format, how): (Format, &Shown),
    input: &Input,
    graph: &Graph<'_>,
    (source, not_kept): Known<'_>,
) -> Result<Vec<u8>, Failure> {
    let notes = not_kept.map(NotKept::notes).unwrap_or_default();
    let origins = match how.no_places {
        true => Origins::hidden(),
        false if how.relative => Origins::of(source).from_beside(file),
        false => Origins::of(source),
    };
    match format {
        Format::Text => Ok(text::print(graph, &origins, &notes).into_bytes()),
        Format::Dot if how.all_nodes => Ok(dot_all::print(graph).into_bytes()),
        Format::Dot => Ok(dot::print(graph, &how.part)?.into_bytes()),
        Format::Html => {
            let text = html::print(graph, &origins, &notes);
            let text = text.map_err(|error| Failure::Machine(error.to_string()))?;
            Ok(text.into_bytes())
        }
        Format::Rows => Ok(rows::print(input.events_done() as usize, graph)),
        Format::Stored => input.stored_graph(graph),
        Format::Json => {
            let text = json::print(graph, &origins, not_kept);
            let text = text.map_err(|error| Failure::Machine(error.to_string()))?;
            Ok(text.into_bytes())
        }
        Format::Rust => {
            do_not_meet(file, input, &input.names(graph))?;
            Ok(rust::print(input.sheet(), graph, &notes).into_bytes())
        }
    }
}

/// Names that meet are a refusal, with the place in the file where that was just read.
fn do_not_meet(file: &Path, input: &Input, names: &Names) -> Result<(), Failure> {
    if names.meetings.is_empty() {
        return Ok(());
    }
    let read = input.source.as_ref().zip(input.sheet());
    let located = read.map(|(source, sheet)| (source, Places::of(source, sheet)));
    let place = |row: usize| {
        let found = located
            .as_ref()
            .and_then(|(source, places)| Some(source.at(places.of_row(row)?, "")));
        found.unwrap_or_else(|| format!("{}: ", named(file)))
    };
    Err(Failure::Refused(names.words(place)))
}

fn names(command: &Command, file: &Path, partial: bool) -> Result<(), Failure> {
    let input = input(command, file, partial)?;
    let names = input.with_graph(file, |graph| Ok(input.names(graph)))?;
    let counted = input.with_source(|source| match source {
        Some(source) => {
            let not_kept = input.not_kept(source);
            let some = !not_kept.places.is_empty();
            some.then(|| not_kept.counted(source)).into_iter().collect()
        }
        None => input.unnamed(file),
    });
    warn(command, counted)?;
    let refused = |source: Option<&Source>| input.refused_patterns(file, source);
    warn(command, input.with_source(refused))?;
    let read = input.source.as_ref().zip(input.sheet());
    let located = read.map(|(source, sheet)| {
        let places = Places::of(source, sheet);
        (Lines::of(source.document().text()), places)
    });
    let line = |row: usize| {
        located
            .as_ref()
            .and_then(|(lines, places)| Some(lines.line(places.of_row(row)?)))
    };
    let written = write_output(None, names.listing(line).as_bytes());
    though_unread(written)?;
    do_not_meet(file, &input, &names)
}

/// Lists the patterns; one that is refused ends with status 1.
fn patterns_of(command: &Command, file: &Path) -> Result<(), Failure> {
    let input = input(command, file, true)?;
    let judged = input.patterns();
    let listed = |source: Option<&Source>| {
        let lines = patterns::lines(&judged, input.sheet(), (&named(file), source));
        lines
            .iter()
            .map(|line| format!("{line}\n"))
            .collect::<String>()
    };
    though_unread(write_output(None, input.with_source(listed).as_bytes()))?;
    match judged.iter().filter(|judged| judged.is_refused()).count() {
        0 => Ok(()),
        count => {
            let told = plural(count as u64, "pattern");
            let words = format!("{}: {count} {told} refused", named(file));
            Err(Failure::Refused(words))
        }
    }
}

/// Writes the schema of a sheet back.
fn write(
    command: &Command,
    file: &Path,
    output: Option<&Path>,
    form: TextForm,
    partial: bool,
) -> Result<(), Failure> {
    if let Some(output) = output {
        remove_left_beside(output);
    }
    let input = input(command, file, partial)?;
    let Some(sheet) = input.sheet() else {
        let words = "it is a stored graph, which has no schema to write; take its XSD file or a stored sheet";
        return Err(Failure::Refused(format!("{}: {words}", named(file))));
    };
    let mut text = input.with_source(|source| {
        let text = writing::text(file, source, sheet)?;
        let not_kept = match source {
            Some(source) => writing::not_kept(source, sheet),
            None => writing::unnamed(file, input.about.as_ref()),
        };
        let open = writing::open_type(file, sheet);
        warn(command, not_kept.into_iter().chain(open).collect())?;
        Ok(text)
    })?;
    if form.iso20022 {
        text = writing::for_iso20022(&text);
    }
    if form.pretty {
        text = writing::indented(&text);
    }
    write_output(output, text.as_bytes())
}

fn read(
    command: &Command,
    file: &Path,
    sheet: &Path,
    events: usize,
    begin: Begin,
    wait: Duration,
) -> Result<(), Failure> {
    interrupt::watch();
    let source = Source::load(file)?;
    say_way(command, &source);
    let _lock = lock::on_sheet(sheet, wait)?;
    remove_left_beside(sheet);
    let mut stored = stored::resumed(sheet, &source, begin)?;
    let progress = Progress::new(source.document().events().len(), command.quiet);
    let read = advance(&source, sheet, &mut stored, events, &progress);
    progress.end();
    read?;
    let light = light::told(&stored.sheet, Some(&source));
    let line = format!("{}: {}{light}\n", named(sheet), stored.progress());
    though_unread(write_output(None, line.as_bytes()))?;
    if !stored.is_whole() {
        return Ok(());
    }
    let mut lines = losses::lines(&source, &stored.sheet);
    lines.extend(NotKept::of(&source, &stored.sheet).lines(&source, most(command)));
    warn(command, lines)
}

/// Reads on and stores after each piece; where no event is to be read the sheet is stored as it stands.
///
/// # Errors
///
/// As [`read_on`], or [`Failure::Machine`] where the sheet can't be stored.
pub fn advance(
    source: &Source,
    path: &Path,
    stored: &mut Stored,
    events: usize,
    progress: &Progress,
) -> Result<(), Failure> {
    let Stored { sheet, about, .. } = stored;
    let mut done = sheet.events_done();
    if events == 0 {
        stored::store(path, sheet, about)?;
    }
    read_on(source, sheet, events, |sheet| {
        progress.add(sheet.events_done() - done);
        done = sheet.events_done();
        stored::store(path, sheet, about)
    })
}

fn check(path: &Path) -> Result<(), Failure> {
    let stored = stored::load(path)?;
    write_output(None, described(path, &stored).as_bytes())
}

/// What a good sheet holds and how far it is.
fn described(path: &Path, stored: &Stored) -> String {
    let (sheet, about) = (&stored.sheet, &stored.about);
    let sum: String = about
        .sha256
        .iter()
        .map(|byte| format!("{byte:02x}"))
        .collect();
    let count = |kind: Kind| {
        sheet
            .declared()
            .filter(|declared| declared.kind == kind)
            .count()
    };
    let state = match sheet.context() {
        Context::Outside => "outside a schema",
        Context::Schema => "in a schema",
        Context::SimpleType => "in a simple type",
        Context::ComplexType => "in a complex type",
    };
    let read_as = match sheet.read_as() {
        ReadAs::Original => "as the original, any close at the top level ends the schema",
        ReadAs::Standard => "by the standard",
    };
    let old = match stored.converted {
        true => ", and old: it was stored before there was a count of refused types",
        false => "",
    };
    let source = (sheet.refused_types() > 0)
        .then(|| about.source())
        .flatten();
    let light = light::told(sheet, source.as_ref());
    format!(
        "{}: good{old}\nsource: {}, {} bytes, SHA-256 {sum}\nread: {read_as}\ndone: {}, {} tags open, {state}{light}\nholds: {} elements, {} simple types, {} complex types\nuses: {} of {} rows, {} of {} bytes of names\n",
        named(path),
        named(&about.path),
        about.length,
        stored.progress(),
        sheet.open_tags(),
        count(Kind::Element),
        count(Kind::SimpleType),
        count(Kind::ComplexType),
        sheet.rows_used(),
        sheet.rows().len() / lubiksan::limits::ROW,
        sheet.names_used(),
        sheet.names().len(),
    )
}

fn tape(command: &Command, file: &Path, output: &Path) -> Result<(), Failure> {
    remove_left_beside(output);
    let source = Source::load(file)?;
    say_way(command, &source);
    let pieces = pieces(&source)?;
    match pieces.as_slice() {
        [one] => write_output(Some(output), &printed(one)),
        several => several.iter().enumerate().try_for_each(|(index, piece)| {
            write_output(Some(&numbered(output, index)), &printed(piece))
        }),
    }
}

/// `OUT.000`
fn numbered(output: &Path, index: usize) -> PathBuf {
    let mut name = output.as_os_str().to_owned();
    name.push(format!(".{index:03}"));
    PathBuf::from(name)
}

/// The source in as few pieces as hold it; one at least.
fn pieces(source: &Source) -> Result<Vec<Piece<'_>>, Failure> {
    let document = source.document();
    let mut pieces = Vec::new();
    let mut first = 0;
    while first < document.events().len() || pieces.is_empty() {
        let piece = document
            .piece(first, usize::MAX)
            .map_err(|fault| source.too_long(&fault))?;
        first += piece.events;
        pieces.push(piece);
    }
    Ok(pieces)
}

/// The printing program's input: the two lengths, the text, the marks.
fn printed(piece: &Piece<'_>) -> Vec<u8> {
    let lengths = [piece.text.len() as u32, piece.marks.len() as u32];
    let mut bytes: Vec<u8> = lengths
        .iter()
        .flat_map(|number| number.to_le_bytes())
        .collect();
    bytes.extend(piece.text.iter());
    bytes.extend(piece.marks.iter().flat_map(|number| number.to_le_bytes()));
    bytes
}
