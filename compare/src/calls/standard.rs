//! Sheets cleared with the choice 1 of order 3: the worked examples, every small tape, random documents and sheets, the schemas.
//! The judges are the model and, over the tree of the tags, `paper::tree`.

use std::fs;
use std::io;
use std::path::Path;

use super::check::{rooms, Checks};
use super::small::{each_list, one, IN_COMPLEX, IN_SCHEMA, IN_SIMPLE, OUTSIDE};
use crate::cases::schemas_under;
use crate::definitions::readings::{cut, damage_one};
use crate::definitions::standard::{examples, header, heads, random_state_by_standard, HEADERS};
use crate::events::{events_of_xml, pieces};
use crate::paper::agree::{run_from, ROOMY};
use crate::paper::sheet::{Lent, Sheet};
use crate::paper::state::State;
use crate::paper::tree::{declared, Kind};
use crate::paper::Answer;
use crate::random::Random;
use crate::reader;
use crate::tally::Tally;
use crate::tape::{events, Event, Tape};
use crate::tapes::{document, messed, odd_events};

const SEED: u64 = 0x6c75_6269_6b50;

/// How many documents are read; how many sheets are tried.
const DOCUMENTS: usize = 100_000;
const SHEETS: usize = 30_000;

/// The events that lead to a context, the alphabet there, and the longest list.
const CONTEXTS: [(&str, &str, usize); 9] = [
    ("", OUTSIDE, 4),
    ("<x>", OUTSIDE, 3),
    (
        "<schema targetNamespace=abc><element name=A type=B/>",
        IN_SCHEMA,
        4,
    ),
    ("<schema><x>", IN_SCHEMA, 4),
    ("<schema><element name=A type=B><x>", IN_SCHEMA, 3),
    ("<schema><x><y><z>", IN_SCHEMA, 3),
    ("<schema><simpleType name=A>", IN_SIMPLE, 3),
    ("<schema><complexType name=A>", IN_COMPLEX, 3),
    (
        "<schema><complexType name=A><simpleContent><extension base=G>",
        IN_COMPLEX,
        3,
    ),
];

fn checks(calls: &'static str) -> Checks {
    Checks::new(
        calls,
        "their states by choice 0 with the Rust's handlers",
        "no documents",
    )
}

/// The worked examples, number, place and row 0 by hand, and the headers.
pub fn written() -> Vec<Tally> {
    let mut answers = Tally::new("worked examples of both choices, number, place and row 0");
    let mut goods = Tally::new("nesting, open tags and choice in context 1: good or not");
    let mut checks = checks("both, with the model");
    for example in examples() {
        let (given, after) = read(&example.sheet, &example.tape);
        answers.compare(
            "lubiksan_read",
            &example.shows,
            (example.answer, &example.row0[..]),
            (given, &after.rows[..10]),
        );
        checks.read(&example.sheet, &example.tape);
    }
    for given in HEADERS {
        let (answer, _) = read(&header(given), &Tape::default());
        goods.compare("lubiksan_read", &given, given.3, answer.number == 0);
        for lines in ["", "</>", "<x>", "</></></></>", "<complexType>"] {
            checks.read(&header(given), &Tape::of(&events(lines)));
        }
    }
    [vec![answers, goods], checks.tallies()].concat()
}

/// A reading by the library.
fn read(sheet: &Sheet, tape: &Tape) -> (Answer, Sheet) {
    let mut after = sheet.clone();
    let given = reader::read(&mut after, tape);
    (given, after)
}

/// Every small tape in each context.
pub fn small() -> Vec<Tally> {
    let mut checks = checks("every small tape by the standard, in five rooms and in pieces");
    for (before, alphabet, longest) in CONTEXTS {
        let start = run_from(State::cleared_by(true), &events(before));
        let start = start.expect("the events are accepted");
        let alphabet = events(alphabet);
        for length in 0..=longest {
            each_list(&alphabet, length, &mut |list| {
                one(&mut checks, &start, list)
            });
        }
    }
    checks.tallies()
}

/// Random documents: with the model in rooms and pieces, with the tree of their tags, and one choice with the other.
pub fn documents() -> Vec<Tally> {
    let mut checks =
        checks("random documents by the standard, in turn in five rooms and in pieces");
    let mut trees = Tally::new("their heads with the direct children of the outermost schema tags");
    let mut choices =
        Tally::new("documents whose schema ends once under both choices, one sheet with the other");
    let mut random = Random::new(SEED);
    for index in 0..DOCUMENTS {
        let events = match index % 4 {
            0 => messed(&mut random),
            1 => [document(&mut random), odd_events(&mut random, 6)].concat(),
            _ => document(&mut random),
        };
        let rooms = rooms(&State::cleared_by(true), &events);
        let lent = rooms[index % rooms.len()];
        let mut sheet = State::cleared_by(true).sheet(lent);
        let pieces = if index % 2 == 0 {
            vec![events.clone()]
        } else {
            cut(&events, &mut random)
        };
        for piece in pieces {
            sheet = checks.read(&sheet, &Tape::of(&piece));
        }
        trees.count_some(with_tree(&events), || format!("{events:?}"));
        choices.count_some(alike(&events), || format!("{events:?}"));
    }
    [checks.tallies(), vec![trees, choices]].concat()
}

/// The events read by the library into a large sheet cleared with a choice.
fn read_by(by_standard: bool, events: &[Event]) -> (Answer, Sheet) {
    let mut sheet = Sheet {
        rows: vec![7; 2_000],
        names: vec![7; 2_000],
    };
    reader::clear(&mut sheet, u32::from(by_standard));
    let given = reader::read(&mut sheet, &Tape::of(events));
    (given, sheet)
}

/// The heads of an accepted document are those of its tree.
fn with_tree(events: &[Event]) -> Option<Result<(), String>> {
    let (given, sheet) = read_by(true, events);
    let state = (given.number == 0).then(|| State::of(&sheet))??;
    Some(same_heads(&state, events))
}

/// The kinds, names and numbers of the heads are those of the tree.
fn same_heads(state: &State, events: &[Event]) -> Result<(), String> {
    let kind = |tag| match tag {
        2 => Kind::Element,
        3 => Kind::SimpleType,
        _ => Kind::ComplexType,
    };
    let ours = heads(state).into_iter();
    let ours: Vec<(Kind, String, u32)> = ours
        .map(|(tag, name, event)| (kind(tag), name.to_owned(), event))
        .collect();
    let tree = declared(events);
    if ours == tree {
        return Ok(());
    }
    Err(format!("the tree has {tree:?}, ours {ours:?}"))
}

/// "where the schema's own close is the only one in context 1, the choices give the same sheet but for number 9"
fn alike(events: &[Event]) -> Option<Result<(), String>> {
    if !has_own_closes(events) {
        return None;
    }
    let ((first, as_before), (second, mut by_standard)) =
        (read_by(false, events), read_by(true, events));
    by_standard.rows[9] = 0;
    if (first, &as_before) == (second, &by_standard) {
        return Some(Ok(()));
    }
    Some(Err(format!("{first:?} with 0, {second:?} with 1")))
}

/// Under choice 1 no start in context 1 stays below the schema: each opens a type or is refused.
fn has_own_closes(events: &[Event]) -> bool {
    let mut state = State::cleared_by(true);
    for event in events {
        match state.after(event, ROOMY) {
            Ok(next) => state = next,
            Err(_) => return true,
        }
        if state.context == 1 && state.nesting > 0 {
            return false;
        }
    }
    true
}

/// Good sheets by the standard that no reading need reach, half of them damaged, read on and cleared with every choice.
pub fn sheets() -> Vec<Tally> {
    let mut checks = checks("random sheets by the standard and damaged ones, read on and cleared");
    let mut random = Random::new(SEED + 1);
    for index in 0..SHEETS {
        let state = random_state_by_standard(&mut random);
        let events = odd_events(&mut random, 1 + index % 8);
        let rooms = rooms(&state, &events);
        let mut sheet = state.sheet(rooms[index % rooms.len()]);
        match index % 4 {
            0 => damage_one(&mut sheet.rows, &mut random),
            1 => damage_one(&mut sheet.rows[..10], &mut random),
            _ => {}
        }
        checks.read(&sheet, &Tape::of(&events));
        checks.clear(&sheet, [1, 1, 2, u32::MAX][index % 4]);
    }
    checks.tallies()
}

/// The schemas in `folder`, characters outside ASCII replaced: with the model, and their heads with the direct children of `schema` in the
/// tags that the XML parser gives.
///
/// # Errors
///
/// Returns the error where a file or folder cannot be read.
pub fn schemas(folder: &Path) -> io::Result<Vec<Tally>> {
    let mut checks = checks("the schemas by the standard, in five rooms");
    let mut heads =
        Tally::new("their heads with the global elements and types that an XML parser finds");
    for file in schemas_under(folder)? {
        let text = ascii(fs::read(&file)?);
        let events = events_of_xml(&text).map_err(io::Error::other)?;
        let shown = || file.display().to_string();
        heads.count_some(schema(&mut checks, &events), shown);
    }
    Ok([checks.tallies(), vec![heads]].concat())
}

/// The bytes as text, each byte above 127 as an `x`.
fn ascii(bytes: Vec<u8>) -> String {
    let plain = |byte: u8| if byte.is_ascii() { byte } else { b'x' };
    bytes.into_iter().map(plain).map(char::from).collect()
}

/// A schema in its rooms; its heads, where it was read whole, with those of the tree.
fn schema(checks: &mut Checks, events: &[Event]) -> Option<Result<(), String>> {
    let pieces = pieces(events);
    let mut whole = rooms(&State::cleared_by(true), events);
    whole.push(Lent { ..ROOMY });
    let mut last = None;
    for lent in whole {
        let mut sheet = State::cleared_by(true).sheet(lent);
        for piece in &pieces {
            sheet = checks.read(&sheet, piece);
        }
        last = State::of(&sheet);
    }
    let state = last.filter(|state| state.events as usize == events.len())?;
    Some(same_heads(&state, events))
}
