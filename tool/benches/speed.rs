//! Speed, not in the gate: `cargo bench --bench speed -- FILE.xsd` in this folder (see README).
//!
//! Text to graph: `parse_str` and `lower` of the unchanged Rust, and the same through this program's library, the rounds
//! in turn, medians. Then file to graph: the program `lubiksan graph` against xmllint and xsdata where they are installed.

use std::error::Error;
use std::fs;
use std::path::{Path, PathBuf};
use std::process::{Command, Stdio};
use std::time::{Duration, Instant};

use lubiksan::{Graph, ReadAs};
use lubiksan_tool::reading::read_whole;
use lubiksan_tool::source::Source;

const ROUNDS: usize = 301;
const RUNS: usize = 51;

fn main() -> Result<(), Box<dyn Error>> {
    let named = std::env::args()
        .skip(1)
        .find(|argument| !argument.starts_with("--"));
    let file = named.map_or_else(default_file, PathBuf::from);
    println!("{}", file.display());
    text_to_graph(&file)?;
    file_to_graph(&file);
    Ok(())
}

fn default_file() -> PathBuf {
    Path::new(env!("CARGO_MANIFEST_DIR")).join("tests/data/payment.xsd")
}

/// The Rust and ours in one run.
fn text_to_graph(file: &Path) -> Result<(), Box<dyn Error>> {
    let text = fs::read_to_string(file)?;
    let mut times = [Vec::new(), Vec::new(), Vec::new()];
    for _ in 0..ROUNDS {
        times[0].push(timed(|| rust(&text))?);
        times[1].push(timed(|| ours(file, &text))?);
        times[2].push(timed(|| events(file, &text))?);
    }
    let [rust, ours, events] = times.map(median);
    println!("text to graph: parse_str and lower {rust:?}, ours {ours:?}, of which XML into events {events:?}");
    println!(
        "ours takes {:.2} of the time",
        ours.as_secs_f64() / rust.as_secs_f64()
    );
    Ok(())
}

fn rust(text: &str) -> Result<usize, Box<dyn Error>> {
    let schema = compare::xsd::parser::parse_str(text)?;
    Ok(compare::ir::lower::lower(&schema)?.types.len())
}

fn ours(file: &Path, text: &str) -> Result<usize, Box<dyn Error>> {
    let source =
        Source::of(file, text.as_bytes().to_vec()).map_err(|failure| failure.words().to_owned())?;
    let sheet =
        read_whole(&source, ReadAs::Standard).map_err(|failure| failure.words().to_owned())?;
    let mut graph = Graph::new();
    sheet.lower(&mut graph)?;
    Ok(graph.types().count())
}

fn events(file: &Path, text: &str) -> Result<usize, Box<dyn Error>> {
    let source =
        Source::of(file, text.as_bytes().to_vec()).map_err(|failure| failure.words().to_owned())?;
    Ok(source.document().events().len())
}

fn timed(work: impl FnOnce() -> Result<usize, Box<dyn Error>>) -> Result<Duration, Box<dyn Error>> {
    let begun = Instant::now();
    std::hint::black_box(work()?);
    Ok(begun.elapsed())
}

fn median(mut times: Vec<Duration>) -> Duration {
    times.sort();
    times.get(times.len() / 2).copied().unwrap_or_default()
}

/// Whole processes. xmllint reads the file as XML and as a schema; xsdata makes Python classes.
fn file_to_graph(file: &Path) {
    let path = file.to_string_lossy().into_owned();
    let ways: [(&str, Vec<&str>); 4] = [
        (
            env!("CARGO_BIN_EXE_lubiksan"),
            vec!["graph", &path, "--quiet"],
        ),
        ("xmllint", vec!["--noout", &path]),
        ("xmllint", vec!["--noout", "--schema", &path, &path]),
        ("xsdata", vec!["generate", "--print", &path]),
    ];
    for (program, args) in ways {
        let times: Option<Vec<Duration>> = (0..RUNS).map(|_| process(program, &args)).collect();
        let name = Path::new(program)
            .file_name()
            .unwrap_or_default()
            .to_string_lossy();
        match times {
            Some(times) => println!(
                "file to graph: {name} {} {:?}",
                args[..args.len() - 1].join(" "),
                median(times)
            ),
            None => println!("file to graph: {name} is not installed"),
        }
    }
}

fn process(program: &str, args: &[&str]) -> Option<Duration> {
    let begun = Instant::now();
    let quiet = || Stdio::null();
    Command::new(program)
        .args(args)
        .stdin(quiet())
        .stdout(quiet())
        .stderr(quiet())
        .status()
        .ok()?;
    Some(begun.elapsed())
}
