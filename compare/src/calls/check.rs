//! One call compared.

use crate::paper::agree::{check_document, check_reading, ROOMY};
use crate::paper::reading::{clear, convert, events_of, read};
use crate::paper::sheet::{fits, names_used, rows_used, Lent, Sheet};
use crate::paper::state::State;
use crate::paper::Answer;
use crate::reader;
use crate::tally::Tally;
use crate::tape::{tag_xml, Event, Tape};

/// The counts of one group of cases.
pub struct Checks {
    calls: Tally,
    handlers: Tally,
    documents: Tally,
}

impl Checks {
    /// A group without cases, and the names of what is counted in it.
    pub fn new(calls: &'static str, handlers: &'static str, documents: &'static str) -> Checks {
        Checks {
            calls: Tally::new(calls),
            handlers: Tally::new(handlers),
            documents: Tally::new(documents),
        }
    }

    /// What was counted: the calls with the model, the states with the handlers, the schemas with
    /// `parse_str`.
    pub fn tallies(self) -> Vec<Tally> {
        vec![self.calls, self.handlers, self.documents]
    }

    /// Clearing with a choice.
    pub fn clear(&mut self, sheet: &Sheet, choice: u32) {
        let model = clear(sheet, choice);
        let mut after = sheet.clone();
        let given = reader::clear(&mut after, choice);
        self.calls.given(given.number);
        let shown = || format!("lubiksan_clear of {:?} with {choice}", sheet.lent());
        self.calls.count(same(&model, &(given, after), shown));
    }

    /// A conversion; gives the sheet that the model leaves.
    pub fn convert(&mut self, sheet: &Sheet) -> Sheet {
        let model = convert(sheet);
        let mut after = sheet.clone();
        let given = reader::convert(&mut after);
        self.calls.given(given.number);
        let shown = || {
            let first = &sheet.rows[..20.min(sheet.rows.len())];
            format!("lubiksan_convert of {:?}, {first:?}", sheet.lent())
        };
        self.calls.count(same(&model, &(given, after), shown));
        model.1
    }

    /// A reading; gives the sheet that the model leaves.
    pub fn read(&mut self, sheet: &Sheet, tape: &Tape) -> Sheet {
        let model = read(sheet, tape);
        let mut after = sheet.clone();
        let given = reader::read(&mut after, tape);
        if let Some(start) = State::of_lent(sheet) {
            let events = events_of(tape);
            let agreed = check_reading(&start, &events, given, &after);
            self.handlers.count_some(agreed, || shown(sheet, tape));
        }
        self.calls.given(given.number);
        let ours = (given, after);
        self.calls.count(same(&model, &ours, || shown(sheet, tape)));
        model.1
    }

    /// A whole document into a sheet cleared with 0, the schema compared with that of `parse_str`.
    pub fn document(&mut self, lent: Lent, events: &[Event]) {
        let sheet = State::cleared().sheet(lent);
        let tape = Tape::of(events);
        let mut after = sheet.clone();
        let given = reader::read(&mut after, &tape);
        let agreed = check_document(events, given, &after);
        self.documents.count_some(agreed, || shown(&sheet, &tape));
        self.read(&sheet, &tape);
    }
}

fn shown(sheet: &Sheet, tape: &Tape) -> String {
    let (row0, lent) = (&sheet.rows[..10.min(sheet.rows.len())], sheet.lent());
    let events: String = events_of(tape).iter().map(line_of).collect();
    let (text, marks) = (tape.text.len(), &tape.marks);
    format!("lubiksan_read of {lent:?} with row 0 {row0:?}, the events {events}, {text} bytes, marks {marks:?}")
}

fn line_of(event: &Event) -> String {
    match event {
        Event::Start(tag) => tag_xml(tag, ">"),
        Event::Empty(tag) => tag_xml(tag, "/>"),
        Event::Close => "</>".to_owned(),
    }
}

/// The answers and the buffers are the same; else what was called and where they first differ.
fn same(
    model: &(Answer, Sheet),
    ours: &(Answer, Sheet),
    shown: impl Fn() -> String,
) -> Result<(), String> {
    if model == ours {
        return Ok(());
    }
    let rows = first_difference(&model.1.rows, &ours.1.rows);
    let names = first_difference(&model.1.names, &ours.1.names);
    Err(format!(
        "{}: the model gives {:?}, ours {:?}; rows differ {rows:?}, names differ {names:?}",
        shown(),
        model.0,
        ours.0,
    ))
}

/// The first index at which the lists differ, with both values.
fn first_difference<A: PartialEq + Copy>(model: &[A], ours: &[A]) -> Option<(usize, A, A)> {
    let pairs = model.iter().zip(ours).enumerate();
    pairs
        .map(|(at, (&a, &b))| (at, a, b))
        .find(|(_, a, b)| a != b)
}

/// The most rows and the most names of a state on the way through `events` from `start`.
fn peak(start: &State, events: &[Event]) -> Lent {
    let mut state = start.clone();
    let mut peak = lent_of(start);
    for event in events {
        match state.after(event, ROOMY) {
            Ok(next) => state = next,
            Err(_) => break,
        }
        let now = lent_of(&state);
        peak.rows = peak.rows.max(now.rows);
        peak.names = peak.names.max(now.names);
    }
    peak
}

fn lent_of(state: &State) -> Lent {
    Lent {
        rows: 10 * rows_used(&state.rows),
        names: names_used(&state.rows),
    }
}

/// What `events` need from `start` on, one row or one byte more, and one less where the start fits.
pub fn rooms(start: &State, events: &[Event]) -> Vec<Lent> {
    let Lent { rows, names } = peak(start, events);
    let all = [
        (rows, names),
        (rows - 10, names),
        (rows, names.saturating_sub(1)),
        (rows + 10, names),
        (rows, names + 1),
    ];
    all.map(|(rows, names)| Lent { rows, names })
        .into_iter()
        .filter(|&lent| fits(&start.rows, lent))
        .collect()
}
