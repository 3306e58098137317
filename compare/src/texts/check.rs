//! One text compared.

use std::collections::BTreeMap;

use super::explained::{lets_pass, refuses};
use crate::paper::xml::{answered, judged, Judged};
use crate::paper::{answer, Answer};
use crate::parsers::{parsers, quick_xml_events, Parser};
use crate::reader;
use crate::tally::Tally;

/// What the marks hold before a call.
const UNSET: u32 = 77_777;

/// Differences by intention, counted by what they are.
pub type Classes = BTreeMap<String, u64>;

/// What was counted of a group of texts.
#[derive(Clone, Default)]
pub struct Counted {
    /// How many texts were tried.
    pub texts: u64,
    /// The cases and differences.
    pub tallies: Vec<Tally>,
    /// The differences by intention.
    pub classes: Classes,
}

/// The counts of one group of texts.
pub struct Checks {
    texts: u64,
    calls: Tally,
    events: Tally,
    verdicts: Vec<(Box<dyn Parser>, Tally)>,
    classes: Classes,
}

impl Checks {
    /// A group without texts, and its name.
    pub fn new(group: &'static str) -> Checks {
        let with = |parser: Box<dyn Parser>| {
            let tally = Tally::new(match parser.name() {
                "expat" => "  their verdicts with expat",
                _ => "  their verdicts with libxml2",
            });
            (parser, tally)
        };
        Checks {
            texts: 0,
            calls: Tally::new(group),
            events: Tally::new("  their events with quick-xml"),
            verdicts: parsers().into_iter().map(with).collect(),
            classes: Classes::new(),
        }
    }

    /// What was counted.
    pub fn counted(self) -> Counted {
        let verdicts = self.verdicts.into_iter().map(|(_, tally)| tally);
        let tallies = [self.calls, self.events].into_iter().chain(verdicts);
        Counted {
            texts: self.texts,
            tallies: tallies.collect(),
            classes: self.classes,
        }
    }

    /// A text: with marks to spare; accepted, with as many as needed, one less and none; refused, with none.
    pub fn text(&mut self, text: &[u8]) {
        self.texts += 1;
        let judged = judged(text);
        let needed = match &judged {
            Judged::Tape(tape) => tape.len(),
            _ => 0,
        };
        let rooms = [needed + 3, needed, needed.saturating_sub(1), 0];
        let tried = if needed > 0 { &rooms[..] } else { &rooms[..2] };
        for &lent in tried.iter().filter(|&&lent| lent <= 16_384) {
            let model = answered(&judged, lent);
            self.call(text, lent, &model);
        }
        if needed > 16_384 {
            self.call(text, 16_384, &answered(&judged, 16_384));
        }
        self.quick_xml(text, &judged);
        self.judges(text, &judged);
    }

    /// A text that has this number with so many marks; with a tape, this is its tape.
    pub fn specimen(&mut self, text: &[u8], lent: usize, number: u32, tape: &[u32]) {
        let (ours, marks) = called(text, lent);
        self.calls.given(ours.number);
        let place = if number == 0 { ours.place } else { 0 };
        let tape_is = tape.is_empty() || marks.starts_with(tape) && ours.place == tape.len() as u32;
        let same = ours == answer(number, place) && tape_is;
        self.calls.count(if same {
            Ok(())
        } else {
            let shown = text.escape_ascii();
            Err(format!(
                "{shown}, {lent} marks: {number} is expected, ours gives {ours:?}, {marks:?}"
            ))
        });
    }

    /// The call alone, with so many marks, whatever the lengths.
    pub fn call(&mut self, text: &[u8], lent: usize, model: &(Answer, Vec<u32>)) {
        let ours = called(text, lent);
        self.calls.given(ours.0.number);
        self.calls.count(if ours == *model {
            Ok(())
        } else {
            Err(format!(
                "{}, {lent} marks: the model gives {}, ours {}",
                shown(text),
                shown_answer(model),
                shown_answer(&ours)
            ))
        });
    }

    fn quick_xml(&mut self, text: &[u8], judged: &Judged) {
        let events = quick_xml_events(text);
        match (judged, events) {
            (Judged::Tape(tape), Ok(events)) => {
                let same = events.marks == *tape && events.open == 0;
                self.events.count(if same {
                    Ok(())
                } else {
                    Err(format!(
                        "{}: {tape:?}, quick-xml {:?}",
                        shown(text),
                        events.marks
                    ))
                });
            }
            (Judged::Tape(_), Err(error)) => {
                let refused = format!("{}: quick-xml refuses it: {error}", shown(text));
                self.events.count(Err(refused));
            }
            (Judged::Malformed, Ok(events)) => {
                let class = match events {
                    _ if events.doctype => "a DOCTYPE that may not stand there (17)",
                    _ if events.open > 0 => "unclosed tags (17)",
                    _ => "names, characters, references, text or tags outside the root (17)",
                };
                self.class("quick-xml lets pass", class);
            }
            _ => {}
        }
    }

    fn judges(&mut self, text: &[u8], judged: &Judged) {
        let good = match judged {
            Judged::Byte => {
                return self.class("not asked", "a byte of no character up to U+017F (5)")
            }
            Judged::Doctype => return self.class("not asked", "a DOCTYPE (18)"),
            Judged::Malformed => false,
            Judged::Tape(_) => true,
        };
        for index in 0..self.verdicts.len() {
            let (parser, tally) = &mut self.verdicts[index];
            let name = parser.name();
            if parser.accepts(text) == good {
                tally.count(Ok(()));
                continue;
            }
            let why = if good {
                refuses(name, text, |text| parser.accepts(text))
            } else {
                lets_pass(name, text)
            };
            match why {
                Some(class) => {
                    let verb = if good { "refuses" } else { "lets pass" };
                    self.class(&format!("{name} {verb}"), class);
                }
                None => {
                    let verdict = if good { "refuses" } else { "accepts" };
                    tally.count(Err(format!("{}: {name} {verdict} it", shown(text))));
                }
            }
        }
    }

    fn class(&mut self, who: &str, class: &str) {
        *self.classes.entry(format!("{who}: {class}")).or_default() += 1;
    }
}

/// The call of the library on marks that hold other numbers.
fn called(text: &[u8], lent: usize) -> (Answer, Vec<u32>) {
    let mut marks = vec![UNSET; lent];
    let answer = reader::tape(text, &mut marks);
    (answer, marks)
}

/// A text, or where it is long its two ends.
fn shown(text: &[u8]) -> String {
    const END: usize = 300;
    if text.len() <= 2 * END {
        return text.escape_ascii().to_string();
    }
    let (start, end) = (&text[..END], &text[text.len() - END..]);
    format!(
        "{} bytes, {} .. {}",
        text.len(),
        start.escape_ascii(),
        end.escape_ascii()
    )
}

fn shown_answer((answer, marks): &(Answer, Vec<u32>)) -> String {
    let first: Vec<&u32> = marks.iter().take(40).collect();
    format!("{} {} {first:?}", answer.number, answer.place)
}

/// The marks that a call of 1 leaves: as they were.
pub fn untouched(lent: usize) -> (Answer, Vec<u32>) {
    (answer(1, 0), vec![UNSET; lent])
}
