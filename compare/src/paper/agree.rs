//! The model against the Rust: the handlers of parser.rs on the state before an event, and
//! `parse_str` on whole tapes. "Equality with the Rust is for 0": a state by the standard is left out.

use super::lowering::{complex_type, simple_type};
use super::sheet::{Lent, Row, Sheet};
use super::state::State;
use super::Answer;
use crate::derived::xsd::parser::handlers::{handled, Open, OpenContent, Reader};
use crate::tape::{is_writable, xml, Event};
use crate::xsd::parser::{parse_str, ParseError};
use crate::xsd::types::ComplexContent;

/// Room for every state of the checks.
pub const ROOMY: Lent = Lent {
    rows: 40_960,
    names: 65_536,
};

/// The event may be given to the handlers, the choice is theirs, and the added limits are not met.
fn in_domain(state: &State, event: &Event) -> bool {
    let limits = state.events < 1_000_000 && state.open_tags < 255 && !state.by_standard;
    limits
        && match event {
            Event::Start(tag) | Event::Empty(tag) => is_writable(tag),
            Event::Close => state.open_tags > 0,
        }
}

/// From `start`, an event up to the first refused one has a spelling that order 2 adds, where a number
/// or `unbounded` is looked for. "Equality with the Rust excludes these spellings."
pub fn is_left_out(start: &State, events: &[Event]) -> bool {
    let mut state = start.clone();
    for event in events {
        if state.meets_new_spelling(event) {
            return true;
        }
        match state.after(event, ROOMY) {
            Ok(next) => state = next,
            Err(_) => return false,
        }
    }
    false
}

/// The model and the handlers give the same state or the same refusal. Events outside the domain
/// and those that are left out are passed over.
pub fn check_event(state: &State, event: &Event) -> Result<(), String> {
    if !in_domain(state, event) || state.meets_new_spelling(event) {
        return Ok(());
    }
    let model = state.after(event, ROOMY).map(|next| reader(&next));
    let rust = handled(reader(state), event);
    if model == rust {
        return Ok(());
    }
    Err(format!(
        "{event:?} on {state:?}: the model gives {model:?}, the Rust {rust:?}"
    ))
}

/// The model and `parse_str` give the same schema or the same refusal on whole tapes.
pub fn check_tape(events: &[Event]) -> Result<(), String> {
    let Some(text) = xml(events) else {
        return Ok(());
    };
    if is_left_out(&State::cleared(), events) {
        return Ok(());
    }
    let model = run(events).and_then(|state| match state.root_seen {
        true => Ok(state.schema()),
        false => Err(12),
    });
    let rust = parse_str(&text).map_err(|error| refusal(&error));
    if model == rust {
        return Ok(());
    }
    Err(format!(
        "{text}: the model gives {model:?}, the Rust {rust:?}"
    ))
}

/// The state after the events from a sheet cleared with 0, each checked against the handlers.
pub fn run(events: &[Event]) -> Result<State, u32> {
    run_from(State::cleared(), events)
}

/// The state after the events from `state`, each checked against the handlers where these judge it.
pub fn run_from(mut state: State, events: &[Event]) -> Result<State, u32> {
    for event in events {
        check_event(&state, event).unwrap_or_else(|difference| panic!("{difference}"));
        state = state.after(event, ROOMY)?;
    }
    Ok(state)
}

/// A reading call that gave `given` and left `after` did what the handlers of the Rust do to the
/// state `start` over `events`. None where an event up to the refused one is outside the domain or
/// left out, the start is by the standard, or the call was refused before its first event.
pub fn check_reading(
    start: &State,
    events: &[Event],
    given: Answer,
    after: &Sheet,
) -> Option<Result<(), String>> {
    let place = given.place as usize;
    let done = events.get(..place)?;
    let judged = &events[..events.len().min(place + 1)];
    let unknown = matches!(given.number, 1 | 2) || start.by_standard;
    if unknown || !all_in_domain(start, judged) || is_left_out(start, judged) {
        return None;
    }
    let rust = done.iter().try_fold(reader(start), handled);
    let ours = State::of(after).map(|state| reader(&state)).ok_or(2);
    if rust != ours {
        return Some(Err(format!("the handlers give {rust:?}, ours {ours:?}")));
    }
    Some(check_refusal(rust.ok()?, events.get(place), given.number))
}

/// The number of a reading is what the handlers give for the first event that was not read.
fn check_refusal(rust: Reader, refused: Option<&Event>, number: u32) -> Result<(), String> {
    let next = refused.map(|event| handled(rust, event).map(|_| ()));
    let agrees = match number {
        0 => next.is_none(),
        9 | 10 => next == Some(Err(number)),
        11 => next == Some(Ok(())),
        _ => true,
    };
    if agrees {
        return Ok(());
    }
    Err(format!("ours gives {number}, the handlers {next:?}"))
}

/// The events are in the domain one after the other from `start`; 6, 7 and 8 are met by none but the
/// last.
fn all_in_domain(start: &State, events: &[Event]) -> bool {
    let mut open = start.open_tags;
    events.iter().all(|event| match event {
        Event::Start(tag) => {
            open += 1;
            is_writable(tag)
        }
        Event::Empty(tag) => is_writable(tag),
        Event::Close => {
            let there = open > 0;
            open = open.saturating_sub(1);
            there
        }
    })
}

/// A reading of a whole document into a cleared sheet gave what `parse_str` gives for its XML text.
/// None outside the domain, for documents that are left out and for a refusal that the Rust does not have.
pub fn check_document(
    events: &[Event],
    given: Answer,
    after: &Sheet,
) -> Option<Result<(), String>> {
    let ours = match given.number {
        0 => State::of(after).map(|state| match state.root_seen {
            true => Ok(state.schema()),
            false => Err(12),
        })?,
        9 | 10 => Err(given.number),
        _ => return None,
    };
    let text = xml(events)?;
    if is_left_out(&State::cleared(), events) {
        return None;
    }
    let rust = parse_str(&text).map_err(|error| refusal(&error));
    if rust == ours {
        return Some(Ok(()));
    }
    Some(Err(format!(
        "{text}: `parse_str` gives {rust:?}, ours {ours:?}"
    )))
}

fn refusal(error: &ParseError) -> u32 {
    match error {
        ParseError::MissingAttribute { .. } => 9,
        ParseError::InvalidAttributeValue { .. } => 10,
        ParseError::MissingSchemaRoot => 12,
        ParseError::Xml(error) => panic!("a tape in the domain was refused: {error}"),
    }
}

/// The state as parser.rs holds it.
fn reader(state: &State) -> Reader {
    Reader {
        schema: state.schema(),
        root_seen: state.root_seen,
        open: open(state),
        nesting: state.nesting,
    }
}

fn open(state: &State) -> Open {
    match state.context {
        0 => Open::Nothing,
        1 => Open::Schema,
        2 => Open::Simple(simple_type(open_rows(state))),
        _ => open_complex(open_rows(state), state.extension),
    }
}

/// The rows of the open type.
fn open_rows(state: &State) -> &[Row] {
    let is_head = |row: &Row| matches!(row.tag, 3 | 12..=16);
    let head = state.rows.iter().rposition(is_head);
    &state.rows[head.expect("a type is open")..]
}

fn open_complex(rows: &[Row], extension: bool) -> Open {
    let name = rows[0].texts[0].clone();
    let content = match complex_type(rows).content {
        _ if rows[0].tag == 16 => OpenContent::Absent,
        ComplexContent::SimpleContent { base, attributes } => OpenContent::SimpleContent {
            base,
            attributes,
            extension,
        },
        other => OpenContent::Other(other),
    };
    Open::Complex { name, content }
}
