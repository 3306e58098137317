//! Numbers and `unbounded` in every spelling, at each place where an event has one.

use super::check::Checks;
use crate::cases::texts_over;
use crate::paper::agree;
use crate::paper::sheet::Lent;
use crate::paper::state::State;
use crate::tally::Tally;
use crate::tape::{events, Event, Tag, Tape};

const BYTES: &[u8] = b"\0\t\n\x0b\x0c\r\x1c\x1f +-079x";
const ENDS: &[u8] = b"\t\n\r \x0b\x0c\x1c\0";

const FACETS: [&str; 4] = ["minLength", "maxLength", "totalDigits", "fractionDigits"];
const OCCURS: [&str; 2] = ["minOccurs", "maxOccurs"];

const SIMPLE: &str = "<schema><simpleType name=A>";
const SEQUENCE: &str = "<schema><complexType name=A><sequence>";
const CHOICE: &str = "<schema><complexType name=A><choice>";

const ROOM: Lent = Lent {
    rows: 100,
    names: 20,
};

/// Each text as the value of the four facets with numbers, and as min and max in a sequence, where it is
/// parsed, and in a choice, where it is not.
pub fn compare() -> Vec<Tally> {
    let mut checks = Checks::new(
        "spellings of numbers and of unbounded in facets and occurs",
        "their states with the Rust's handlers",
        "no documents",
    );
    let states = [SIMPLE, SEQUENCE, CHOICE].map(state_after);
    for text in spellings() {
        for word in FACETS {
            one(&mut checks, &states[0], facet(word, &text));
        }
        for word in OCCURS {
            one(&mut checks, &states[1], element(&[(word, &text)]));
            one(&mut checks, &states[2], element(&[(word, &text)]));
        }
        let both = [("minOccurs", text.as_str()), ("maxOccurs", " -0 ")];
        one(&mut checks, &states[1], element(&both));
    }
    checks.tallies()
}

fn state_after(lines: &str) -> State {
    agree::run(&events(lines)).expect("the events are accepted")
}

/// Short texts of the bytes that matter, the limits, and `unbounded` and changes of it, with ends of all kinds.
fn spellings() -> Vec<String> {
    let mut texts = texts_over(BYTES, 0..=3);
    let ends = texts_over(ENDS, 0..=2);
    let words = [
        "unbounded",
        "Unbounded",
        "un bounded",
        "+unbounded",
        "unbounde",
        "35",
        "+7",
        "-000",
        "-01",
        "4294967295",
        "4294967296",
        "18446744073709551615",
        "18446744073709551616",
        "&#32;7",
    ];
    for word in words {
        for end in &ends {
            texts.extend([
                format!("{end}{word}"),
                format!("{word}{end}"),
                format!("{end}{word}{end}"),
            ]);
        }
    }
    texts
}

fn one(checks: &mut Checks, start: &State, event: Event) {
    checks.read(&start.sheet(ROOM), &Tape::of(&[event]));
}

fn facet(word: &str, value: &str) -> Event {
    Event::Empty(Tag::of(word, &[("value", value)]))
}

fn element(occurs: &[(&str, &str)]) -> Event {
    let attributes = [&[("name", "a"), ("type", "b")], occurs].concat();
    Event::Empty(Tag::of("element", &attributes))
}
