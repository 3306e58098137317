//! The tape, clearing and the reading call.

use super::sheet::{good_lengths, Sheet};
use super::state::State;
use super::text::is_text;
use super::{answer, Answer};
use crate::tape::{Event, Tag, Tape};

/// Clears a sheet. "1 also covers a choice above 1."
pub fn clear(sheet: &Sheet, choice: u32) -> (Answer, Sheet) {
    if good_lengths(sheet.lent()) && choice <= 1 {
        let state = State::cleared_by(choice == 1);
        (answer(0, 0), state.sheet(sheet.lent()))
    } else {
        (answer(1, 0), sheet.clone())
    }
}

/// Order 7's conversion: "takes sheets with 0 there, or the right count, and fills it in; it gives 1, or 2 for any other fault, and then
/// changes nothing".
pub fn convert(sheet: &Sheet) -> (Answer, Sheet) {
    if !good_lengths(sheet.lent()) {
        return (answer(1, 0), sheet.clone());
    }
    match State::with_count(sheet) {
        Some((state, count)) if count == 0 || count == state.refused_types() => {
            let mut filled = sheet.clone();
            filled.rows[17] = state.refused_types();
            (answer(0, 0), filled)
        }
        _ => (answer(2, 0), sheet.clone()),
    }
}

/// The reading call: its answer and the sheet afterwards.
pub fn read(sheet: &Sheet, tape: &Tape) -> (Answer, Sheet) {
    let lengths = good_lengths(sheet.lent()) && tape.text.len() <= 65_536;
    if !lengths || tape.marks.len() > 16_384 {
        return (answer(1, 0), sheet.clone());
    }
    match State::of(sheet) {
        None => (answer(2, 0), sheet.clone()),
        Some(state) => {
            let (answer, state) = read_events(state, sheet, tape);
            (answer, state.sheet(sheet.lent()))
        }
    }
}

/// Event by event: "the first refused one changes nothing and drops the rest of the piece".
fn read_events(mut state: State, sheet: &Sheet, tape: &Tape) -> (Answer, State) {
    let mut marks = &tape.marks[..];
    let mut place = 0;
    while !marks.is_empty() {
        let next =
            first_event(&tape.text, &mut marks).and_then(|event| state.after(&event, sheet.lent()));
        match next {
            Ok(next) => state = next,
            Err(number) => return (answer(number, place), state),
        }
        place += 1;
    }
    (answer(0, place), state)
}

/// The events of a tape up to the first refused record.
pub fn events_of(tape: &Tape) -> Vec<Event> {
    let mut marks = &tape.marks[..];
    let mut events = Vec::new();
    while !marks.is_empty() {
        match first_event(&tape.text, &mut marks) {
            Ok(event) => events.push(event),
            Err(_) => break,
        }
    }
    events
}

/// Takes the first record from the marks: its event, or 3, 4 or 5.
fn first_event(text: &[u8], marks: &mut &[u32]) -> Result<Event, u32> {
    let (&kind, &count) = marks.first().zip(marks.get(1)).ok_or(3u32)?;
    if !(1..=3).contains(&kind) || count > 32 || (kind == 3 && count > 0) {
        return Err(3);
    }
    let numbers = if kind == 3 { 0 } else { 2 + 4 * count as usize };
    let pairs = marks.get(2..2 + numbers).ok_or(3u32)?;
    *marks = &marks[2 + numbers..];
    let texts = texts_under(text, pairs)?;
    Ok(match kind {
        1 => Event::Start(tag_of(&texts)),
        2 => Event::Empty(tag_of(&texts)),
        _ => Event::Close,
    })
}

/// The texts under the pairs: first all are judged for 4, then all for 5.
fn texts_under(text: &[u8], pairs: &[u32]) -> Result<Vec<String>, u32> {
    let mut end = 0u64;
    let mut parts = Vec::new();
    for pair in pairs.chunks(2) {
        let from = u64::from(pair[0]);
        let to = from + u64::from(pair[1]);
        if from < end || to > text.len() as u64 {
            return Err(4);
        }
        parts.push(text[from as usize..to as usize].to_vec());
        end = to;
    }
    if !parts.iter().all(|part| is_text(part)) {
        return Err(5);
    }
    let texts = parts.into_iter().map(String::from_utf8);
    Ok(texts.map(|text| text.expect("a text is UTF-8")).collect())
}

fn tag_of(texts: &[String]) -> Tag {
    let attribute = |pair: &[String]| (pair[0].clone(), pair[1].clone());
    Tag {
        name: texts[0].clone(),
        attributes: texts[1..].chunks(2).map(attribute).collect(),
    }
}
