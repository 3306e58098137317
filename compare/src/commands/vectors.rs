//! The fixed sample behind crates/replay.

use std::io::{self, Read, Write};
use std::process::ExitCode;

use compare::leaves;
use compare::paper::number::{is_new_u32, is_new_u64, number_u32, number_u64};
use compare::samples;

use super::failed;

/// Prints the texts, one per line.
pub fn inputs() -> ExitCode {
    ended(print_inputs())
}

/// Reads texts, one per line, and prints for each the answers of the Rust; the model's for a number in a spelling of order 2.
pub fn answers() -> ExitCode {
    ended(print_answers())
}

fn ended(done: io::Result<()>) -> ExitCode {
    match done {
        Ok(()) => ExitCode::SUCCESS,
        Err(error) => failed("vectors", &error),
    }
}

fn print_inputs() -> io::Result<()> {
    let lines: String = samples::texts()
        .iter()
        .map(|text| format!("{text}\n"))
        .collect();
    io::stdout().write_all(lines.as_bytes())
}

fn print_answers() -> io::Result<()> {
    let mut input = Vec::new();
    io::stdin().read_to_end(&mut input)?;
    let mut previous = "";
    let mut lines = String::new();
    for text in lines_of(&input)? {
        lines.push_str(&answer(text, previous));
        previous = text;
    }
    io::stdout().write_all(lines.as_bytes())
}

/// The lines of `input`, each without its line end. The input is ASCII and ends with a line end.
fn lines_of(input: &[u8]) -> io::Result<Vec<&str>> {
    let text = std::str::from_utf8(input)
        .ok()
        .filter(|text| text.is_ascii());
    let text = text.ok_or_else(|| io::Error::other("a byte of the input is above 127"))?;
    if !text.is_empty() && !text.ends_with('\n') {
        return Err(io::Error::other(
            "the last line of the input has no line end",
        ));
    }
    Ok(text.split_terminator('\n').collect())
}

/// The line with the answers on `text`.
fn answer(text: &str, previous: &str) -> String {
    let normal = leaves::normalize_type_name(text);
    let same = normal == leaves::normalize_type_name(previous);
    format!(
        "local={} u32={} u64={} builtin={} normal={} snake={} pascal={} same={}\n",
        leaves::local_name(text),
        number_or_dash(u32_of(text)),
        number_or_dash(u64_of(text)),
        leaves::builtin_number(leaves::map_builtin(text)),
        normal,
        leaves::xml_to_snake_case(text),
        leaves::code_to_pascal_case(text),
        u8::from(same),
    )
}

fn u32_of(text: &str) -> Option<u32> {
    if is_new_u32(text) {
        number_u32(text)
    } else {
        leaves::parse_u32(text)
    }
}

fn u64_of(text: &str) -> Option<u64> {
    if is_new_u64(text) {
        number_u64(text)
    } else {
        leaves::parse_u64(text)
    }
}

fn number_or_dash<N: ToString>(value: Option<N>) -> String {
    value.map_or_else(|| "-".to_owned(), |v| v.to_string())
}
