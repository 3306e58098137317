//! Lists, sheets and statements in the proof language.

use super::call::{Answered, Call, Given, Step};
use super::Case;
use crate::paper::lowering::Lowered;
use crate::paper::sheet::Sheet;
use crate::paper::Answer;
use crate::tape::Tape;

/// A run of equal numbers of at least this length is written by its length.
const LONG_RUN: usize = 8;

/// The first lines of a file of cases.
pub const HEADER: &str = "\
use Rattle.std.specs.Prelude.{◌≡◌, refl, true, false, List, [], ◌∷◌, ◌++◌, replicate}
use Rattle.std.proofs.Math.Option.{some, none}
use Rattle.text.specs.Text.{bytes}
use Rattle.text.specs.Unfold.{computes as texts}
use Rattle.number.specs.Unfold.{computes as numbers}
use Rattle.builtin.specs.Unfold.{computes as builtins}
use Rattle.names.specs.Unfold.{computes as conversions}
use Rattle.sheet.specs.Rows.{Sheet}
use Rattle.sheet.specs.Lengths.{Answer}
use Rattle.sheet.specs.Unfold.{computes as sheets}
use Rattle.xsd_types.specs.Unfold.{computes as schemas}
use Rattle.xsd_types.specs.Clear.{Cleared, clear}
use Rattle.xsd_parser.specs.Unfold.{computes as readings}
use Rattle.xsd_parser.specs.Read.{ReadAnswer, read}
use Rattle.ir_types.specs.Unfold.{computes as graphs}
use Rattle.ir_types.specs.Label.{Labelled, label}
use Rattle.ir_lower.specs.Unfold.{computes as lowerings}
use Rattle.ir_lower.specs.Call.{Lowered, lowering}
use Rattle.runs.specs.Unfold.{computes as runs}
use Rattle.runs.specs.Runs.{Call, Answered, Ran, run}
";

const BUNDLES: &str =
    "texts numbers builtins conversions sheets schemas readings graphs lowerings runs";

/// The case as a declaration that the proof checker computes.
pub fn declaration(index: usize, case: &Case) -> String {
    format!(
        "\n-- {}: {}\ncase-{index} : {}\nunfolding {BUNDLES}\ncase-{index} = refl\n",
        case.group,
        case.shows,
        statement(&case.call)
    )
}

/// The equation of a call and what the model gives for it.
pub fn statement(call: &Call) -> String {
    format!("{}\n  ≡ {}", call_term(call), given_term(&call.given()))
}

fn call_term(call: &Call) -> String {
    match call {
        Call::Clear(x, choice) => format!("clear {choice} ({})", sheet(x)),
        Call::Read(x, Tape { text, marks }) => {
            format!("read ({}) ({}) ({})", sheet(x), bytes(text), numbers(marks))
        }
        Call::Lower(x, graph, scratch) => {
            format!(
                "lowering ({}) ({}) ({})",
                sheet(x),
                sheet(graph),
                numbers(scratch)
            )
        }
        Call::Label {
            rows,
            names,
            words,
            row,
        } => format!(
            "label ({}) ({}) ({}) {row}",
            numbers(rows),
            bytes(names),
            bytes(words)
        ),
        Call::Run(x, steps) => format!("run ({}) ({})", sheet(x), list(steps, step)),
    }
}

/// The list of the terms of some things.
fn list<T>(things: &[T], term: impl Fn(&T) -> String) -> String {
    let items: String = things.iter().map(|t| format!("{} ∷ ", term(t))).collect();
    format!("{items}[]")
}

fn step(step: &Step) -> String {
    match step {
        Step::Read(Tape { text, marks }) => {
            format!("Call.reading ({}) ({})", bytes(text), numbers(marks))
        }
        Step::Lower(graph, scratch) => {
            format!("Call.lowering ({}) ({})", sheet(graph), numbers(scratch))
        }
    }
}

fn answered(a: &Answered) -> String {
    match a {
        Answered::Read(a, refused) => {
            let number = refused.map_or("none".to_owned(), |number| format!("(some {number})"));
            format!("Answered.read_as ({}) {number}", answer(a))
        }
        Answered::Lowered(l) => format!("Answered.lowered_as ({})", lowered(l)),
    }
}

fn lowered(l: &Lowered) -> String {
    format!(
        "record {{ answer = {}; graph = {}; scratch = {} }}",
        answer(&l.answer),
        sheet(&l.graph),
        numbers(&l.scratch)
    )
}

fn given_term(given: &Given) -> String {
    match given {
        Given::Sheet(a, x) => format!("record {{ answer = {}; sheet = {} }}", answer(a), sheet(x)),
        Given::Lowered(l) => lowered(l),
        Given::Label(l) => format!(
            "record {{ number = {}; in_words = {}; at = {}; text = {} }}",
            l.number,
            l.in_words,
            l.at,
            bytes(&l.text)
        ),
        Given::Ran(answers, last) => format!(
            "record {{ answers = {}; last = {} }}",
            list(answers, answered),
            sheet(last)
        ),
    }
}

fn answer(a: &Answer) -> String {
    format!("record {{ number = {}; place = {} }}", a.number, a.place)
}

fn sheet(x: &Sheet) -> String {
    format!(
        "record {{ rows = {}; names = {} }}",
        numbers(&x.rows),
        bytes(&x.names)
    )
}

/// A list of numbers, long runs of one number by their length.
fn numbers(list: &[u32]) -> String {
    joined(list, |part| {
        let items: String = part.iter().map(|n| format!("{n} ∷ ")).collect();
        format!("{items}[]")
    })
}

/// A list of bytes, as a text where all can be written in one.
fn bytes(list: &[u8]) -> String {
    let wide: Vec<u32> = list.iter().map(|&byte| u32::from(byte)).collect();
    joined(&wide, |part| match plain_text(part) {
        Some(text) => format!("bytes \"{text}\""),
        None => numbers(part),
    })
}

/// The bytes as a text, if there are some and all are printable and need no escape.
fn plain_text(part: &[u32]) -> Option<String> {
    let plain = |&n: &u32| (32..127).contains(&n) && n != 34 && n != 92;
    let text = || part.iter().map(|&n| char::from(n as u8)).collect();
    (!part.is_empty() && part.iter().all(plain)).then(text)
}

/// The list in parts: long runs by `replicate`, the others by `print`.
fn joined(list: &[u32], print: impl Fn(&[u32]) -> String) -> String {
    let mut parts = Vec::new();
    let mut rest = list;
    while let Some((from, length)) = long_run(rest) {
        if from > 0 {
            parts.push(format!("({})", print(&rest[..from])));
        }
        parts.push(format!("replicate {length} {}", rest[from]));
        rest = &rest[from + length..];
    }
    if !rest.is_empty() || parts.is_empty() {
        parts.push(format!("({})", print(rest)));
    }
    parts.join(" ++ ")
}

/// Where the first long run starts, and its length.
fn long_run(list: &[u32]) -> Option<(usize, usize)> {
    let mut from = 0;
    while from < list.len() {
        let length = list[from..]
            .iter()
            .take_while(|&&n| n == list[from])
            .count();
        if length >= LONG_RUN {
            return Some((from, length));
        }
        from += length;
    }
    None
}
