//! One writing compared, one text judged by other parsers, one round trip.

use super::call;
use crate::events::{events_of_xml, pieces};
use crate::lowerings::check::sheet_of;
use crate::paper::sheet::{good_lengths, names_used, rows_used, Lent, Row, Sheet};
use crate::paper::state::State;
use crate::paper::written::{answered, finished, write, written, Written};
use crate::paper::{answer, Answer};
use crate::parsers::{parsers, quick_xml_events, Parser};
use crate::reader;
use crate::tally::Tally;
use crate::tape::Tape;

/// What the text holds before a call.
const UNSET: u8 = 165;
/// The most bytes of text and the most marks that the library takes.
const TEXT: usize = 65_536;
const MARKS: usize = 16_384;
/// So many bytes of a text are shown.
const SHOWN: usize = 300;

/// The counts of one group of cases.
pub struct Checks {
    calls: Tally,
    events: Tally,
    verdicts: Vec<(Box<dyn Parser>, Tally)>,
    rounds: Tally,
}

impl Checks {
    /// A group without cases, and its name.
    pub fn new(group: &'static str) -> Checks {
        let with = |parser: Box<dyn Parser>| {
            let tally = Tally::new(match parser.name() {
                "expat" => "  their texts and values with expat",
                _ => "  their texts and values with libxml2",
            });
            (parser, tally)
        };
        Checks {
            calls: Tally::new(group),
            events: Tally::new("  their texts with quick-xml"),
            verdicts: parsers().into_iter().map(with).collect(),
            rounds: Tally::new("  their texts read again"),
        }
    }

    /// What was counted.
    pub fn tallies(self) -> Vec<Tally> {
        let verdicts = self.verdicts.into_iter().map(|(_, tally)| tally);
        let first = [self.calls, self.events];
        first
            .into_iter()
            .chain(verdicts)
            .chain([self.rounds])
            .collect()
    }

    /// The writing of a sheet, whatever it holds, into so many bytes, with the model.
    pub fn write(&mut self, sheet: &Sheet, lent: usize) {
        let expected = write(sheet, &vec![UNSET; lent]);
        self.against(sheet, lent, expected);
    }

    /// The writing of a sheet into so many bytes gives this number and place, and this text.
    pub fn against(&mut self, sheet: &Sheet, lent: usize, expected: (Answer, Vec<u8>)) {
        let mut text = vec![UNSET; lent];
        let given = call::write(sheet, &mut text);
        self.calls.given(given.number);
        let ours = (given, text);
        self.calls.count(match ours == expected {
            true => Ok(()),
            false => Err(difference(sheet, lent, &expected, &ours)),
        });
    }

    /// The answer for a text of this length is the one worked out by hand.
    pub fn count_answer(&mut self, length: usize, expected: Answer, given: Answer) {
        self.calls
            .compare("lubiksan_write", &length, expected, given);
    }

    /// A good state written into the exact room, one byte more, one less, 0 and 65,536; what is accepted is judged by others and read again.
    pub fn in_rooms(&mut self, state: &State) {
        self.written_in_rooms(state);
        match written(state) {
            Written::Text(text) if text.len() <= TEXT => {
                self.text(&text);
                self.rounds(state, &text);
            }
            _ => {}
        }
    }

    /// A good state written into the exact room, one byte more, one less, 0 and 65,536.
    pub fn written_in_rooms(&mut self, state: &State) {
        let (sheet, written) = (sheet_of(state), written(state));
        let exact = match &written {
            Written::Text(text) => text.len(),
            _ => 40,
        };
        for lent in [exact, exact + 1, exact - 1, 0, TEXT] {
            if lent <= TEXT {
                self.against(&sheet, lent, answered(&written, lent));
            }
        }
        self.write(&sheet, TEXT + 1);
    }

    /// A text that was accepted, with quick-xml's events against the library's tape, and the verdicts of others.
    pub fn text(&mut self, text: &str) {
        let mut marks = vec![0; MARKS];
        let taped = reader::tape(text.as_bytes(), &mut marks);
        let expected = quick_xml_events(text.as_bytes()).map_err(|error| error.to_string());
        let agree = expected.and_then(|events| {
            let same = match events.marks.len() > MARKS {
                true => taped == answer(19, 0),
                false => {
                    marks.truncate(events.marks.len());
                    taped == answer(0, events.marks.len() as u32) && marks == events.marks
                }
            };
            match same && events.open == 0 && !events.doctype {
                true => Ok(()),
                false => Err(format!("quick-xml reads other events than {taped:?}")),
            }
        });
        self.events
            .count(agree.map_err(|difference| format!("{}: {difference}", shown(text))));
        for (parser, tally) in &mut self.verdicts {
            let accepted = parser.accepts(text.as_bytes());
            tally.compare(parser.name(), &shown(text), true, accepted);
        }
    }

    /// A value is held exactly if others take a tag that has it in one of the two quotes; `held` is what the library said.
    pub fn value(&mut self, value: &str, held: bool) {
        for (parser, tally) in &mut self.verdicts {
            let taken = ["\"", "'"].iter().any(|quote| {
                !value.contains(quote)
                    && parser.accepts(format!("<a b={quote}{value}{quote}/>").as_bytes())
            });
            tally.compare(parser.name(), &value, held, taken);
        }
    }

    /// The text of a state read again under both choices: in the exact room, with a row less, with a byte of names less.
    pub fn rounds(&mut self, state: &State, text: &str) {
        for by_standard in [false, true] {
            let rows = finished(state);
            let exact = Lent {
                rows: 10 * rows_used(rows),
                names: names_used(rows),
            };
            let again = self.read_again(rows, text, by_standard, exact);
            self.count_round(text, again);
            let less = [
                (exact.rows.checked_sub(10), Some(exact.names)),
                (Some(exact.rows), exact.names.checked_sub(1)),
            ];
            for lent in less {
                let (Some(rows), Some(names)) = lent else {
                    continue;
                };
                let lent = Lent { rows, names };
                if good_lengths(lent) {
                    let refused = no_room(text, by_standard, lent);
                    self.count_round(text, refused);
                }
            }
        }
    }

    fn count_round(&mut self, text: &str, agreed: Result<(), String>) {
        self.rounds
            .count(agreed.map_err(|difference| format!("{}: {difference}", shown(text))));
    }

    /// The text through the library's tape, or quick-xml's events where it takes too many marks, into a cleared sheet.
    fn read_again(
        &mut self,
        rows: &[Row],
        text: &str,
        by_standard: bool,
        lent: Lent,
    ) -> Result<(), String> {
        let mut sheet = cleared(by_standard, lent);
        for piece in tapes(text)? {
            let read = reader::read(&mut sheet, &piece);
            self.rounds.given(read.number);
            if read.number != 0 {
                return Err(format!("read again it gives {read:?}"));
            }
        }
        same_finished(rows, by_standard, &sheet)
    }
}

/// The start of a text, or all of it where a character stands across that end.
fn shown(text: &str) -> &str {
    text.get(..SHOWN).unwrap_or(text)
}

/// Number and place, and the first byte in which the texts differ.
fn difference(
    sheet: &Sheet,
    lent: usize,
    expected: &(Answer, Vec<u8>),
    ours: &(Answer, Vec<u8>),
) -> String {
    let pairs = expected.1.iter().zip(&ours.1);
    let at = pairs
        .enumerate()
        .find(|(_, (a, b))| a != b)
        .map(|(at, _)| at);
    let used = &sheet.rows[..sheet.rows.len().min(60)];
    format!(
        "rows {used:?} into {lent} bytes: {:?} is expected, ours gives {:?}, the texts differ at {at:?}",
        expected.0, ours.0
    )
}

/// A cleared sheet of this room, which held something else before.
fn cleared(by_standard: bool, lent: Lent) -> Sheet {
    let mut sheet = Sheet {
        rows: vec![7; lent.rows],
        names: vec![7; lent.names],
    };
    let _ = reader::clear(&mut sheet, u32::from(by_standard));
    sheet
}

/// The pieces of a text: its tape, or quick-xml's events where that takes too many marks.
fn tapes(text: &str) -> Result<Vec<Tape>, String> {
    let mut marks = vec![0; MARKS];
    let taped = reader::tape(text.as_bytes(), &mut marks);
    match taped.number {
        0 => {
            marks.truncate(taped.place as usize);
            let text = text.as_bytes().to_vec();
            Ok(vec![Tape { text, marks }])
        }
        19 => {
            let events = events_of_xml(text).map_err(|error| error.to_string())?;
            Ok(pieces(&events))
        }
        _ => Err(format!("its tape gives {taped:?}")),
    }
}

/// Without the room reading gives 11.
fn no_room(text: &str, by_standard: bool, lent: Lent) -> Result<(), String> {
    let mut sheet = cleared(by_standard, lent);
    for piece in tapes(text)? {
        let read = reader::read(&mut sheet, &piece);
        match read.number {
            0 => {}
            11 => return Ok(()),
            _ => return Err(format!("read again with too little room it gives {read:?}")),
        }
    }
    Err("read again with too little room it is accepted".to_owned())
}

/// "it gives the same finished rows and names, event numbers aside": the sheet that these rows make, outside a schema.
fn same_finished(rows: &[Row], by_standard: bool, sheet: &Sheet) -> Result<(), String> {
    let without_number = |row: &Row| row.clone().named_by(0);
    let expected = State {
        rows: rows.iter().map(without_number).collect(),
        root_seen: true,
        ..State::cleared_by(by_standard)
    };
    let mut given = sheet.clone();
    given.rows[6] = 0;
    for ten in given.rows.chunks_mut(10).skip(1) {
        if matches!(ten[0], 2 | 3 | 12..=16) {
            ten[9] = 0;
        }
    }
    match given == expected.sheet(sheet.lent()) {
        true => Ok(()),
        false => Err(format!("read again it is {given:?}")),
    }
}
