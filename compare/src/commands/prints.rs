//! Runs the printing program on many inputs and compares what it prints with the model of paper 01; or writes a part of the files of crates/replay.

use std::collections::BTreeMap;
use std::io::{self, Write};
use std::process::{Command, ExitCode, Stdio};

use compare::prints::{self, inputs, printed, Input};
use compare::schemas;

use super::failed;

/// The part `print` of stdin of crates/replay.
pub fn table() -> ExitCode {
    write(prints::table().as_bytes())
}

/// The part `print` of stdout of crates/replay, by the model.
pub fn answers() -> ExitCode {
    write(&prints::table_answers())
}

fn write(bytes: &[u8]) -> ExitCode {
    match io::stdout().write_all(bytes) {
        Ok(()) => ExitCode::SUCCESS,
        Err(error) => failed("prints", &error),
    }
}

/// All inputs through the program.
pub fn run(program: &str) -> ExitCode {
    let mut all = inputs();
    if let Some(folder) = schemas::folder() {
        all.extend(prints::schemas(&folder).expect("the schemas can be read"));
    }
    let mut ends = BTreeMap::new();
    let differing = all
        .iter()
        .filter(|input| differs(program, input, &mut ends))
        .count();
    let ends: Vec<String> = ends
        .iter()
        .map(|(line, count)| format!("{line} x{count}"))
        .collect();
    println!("last lines printed before a graph: {}", ends.join(", "));
    println!("printed {} inputs, {differing} differences", all.len());
    ExitCode::from(u8::from(differing > 0))
}

/// Whether the program prints something else than the model; counts the words and numbers of its last line of words.
fn differs(program: &str, input: &Input, ends: &mut BTreeMap<String, u32>) -> bool {
    let model = printed(&input.bytes);
    let ours = printed_by(program, &input.bytes);
    *ends.entry(last_words(&model)).or_default() += 1;
    if ours == model {
        return false;
    }
    let shown = |bytes: &[u8]| String::from_utf8_lossy(&bytes[..bytes.len().min(200)]).into_owned();
    println!(
        "{}: the model prints {:?}, ours {:?}",
        input.shows,
        shown(&model),
        shown(&ours)
    );
    true
}

/// The last line that begins with a word, without its place.
fn last_words(printed: &[u8]) -> String {
    let text = String::from_utf8_lossy(printed);
    let words = |line: &&str| {
        line.starts_with("short") || line.starts_with("read ") || line.starts_with("lower ")
    };
    let last = text
        .lines()
        .take(2)
        .filter(words)
        .last()
        .unwrap_or_default();
    last.splitn(3, ' ').take(2).collect::<Vec<_>>().join(" ")
}

/// What the program prints on `input`.
fn printed_by(program: &str, input: &[u8]) -> Vec<u8> {
    let mut child = Command::new(program)
        .stdin(Stdio::piped())
        .stdout(Stdio::piped())
        .spawn()
        .expect("the program can be started");
    let mut standard_input = child.stdin.take().expect("its input is a pipe");
    // the program reads no more than the longest input, so that a write may find its end closed
    let _ = standard_input.write_all(input);
    drop(standard_input);
    child.wait_with_output().expect("the program ends").stdout
}
