//! Every list of up to a few events over an alphabet of tags, in each context.

use super::check::{rooms, Checks};
use crate::paper::agree;
use crate::paper::state::State;
use crate::tally::Tally;
use crate::tape::{events, Event, Tape};

/// The events that lead to a context, the alphabet there, and the longest list.
type Context = (&'static str, &'static str, usize);

pub(super) const OUTSIDE: &str = "<schema targetNamespace=u><schema/><a:schema targetNamespace=vw/><x></><simpleType name=A><complexType><element name=A type=B/><sequence><x/><enumeration value=e/>";
pub(super) const IN_SCHEMA: &str = "<simpleType name=A><simpleType><complexType name=B><element name=A type=B/><element name=C type=D><element name=A/></><x><schema targetNamespace=vw><simpleType/><restriction base=C><sequence>";
pub(super) const IN_SIMPLE: &str = "<restriction base=BC><restriction base=D/><restriction/><x></><enumeration value=E/><pattern/><minLength value=4294967296/><maxLength value=x/><totalDigits value=3/><fractionDigits value=4294967296/><minInclusive value=0/><x:maxInclusive value=12/>";
pub(super) const IN_COMPLEX: &str = "<sequence><choice><simpleContent><extension base=B><element name=C type=D/><element name=C type=D minOccurs=0 maxOccurs=unbounded><element name=C type=D maxOccurs=x/><any/><any namespace=NO/><attribute name=E type=F use=required/></><x>";

const CONTEXTS: [Context; 9] = [
    ("", OUTSIDE, 4),
    ("<x>", OUTSIDE, 3),
    (
        "<schema targetNamespace=abc><element name=A type=B/>",
        IN_SCHEMA,
        4,
    ),
    ("<schema><simpleType name=A>", IN_SIMPLE, 4),
    (
        "<schema><simpleType name=A><restriction base=string><enumeration value=X/>",
        IN_SIMPLE,
        3,
    ),
    ("<schema><complexType name=A>", IN_COMPLEX, 4),
    (
        "<schema><complexType name=A><sequence><element name=G type=H/>",
        IN_COMPLEX,
        4,
    ),
    (
        "<schema><complexType name=A><choice><element name=G type=H/>",
        IN_COMPLEX,
        3,
    ),
    (
        "<schema><complexType name=A><simpleContent><extension base=G><attribute name=G type=H/>",
        IN_COMPLEX,
        4,
    ),
];

/// All of them, in the rooms at, one below and one above what each needs, whole and in two pieces.
pub fn compare() -> Vec<Tally> {
    let mut checks = Checks::new(
        "every small tape in each context, in five rooms and in pieces",
        "their states with the Rust's handlers",
        "small documents with the Rust's parse_str",
    );
    for (before, alphabet, longest) in CONTEXTS {
        let start = agree::run(&events(before)).expect("the events are accepted");
        let alphabet = events(alphabet);
        for length in 0..=longest {
            each_list(&alphabet, length, &mut |list| {
                one(&mut checks, &start, list)
            });
        }
    }
    checks.tallies()
}

/// Every list of `length` events of the alphabet.
pub(super) fn each_list(alphabet: &[Event], length: usize, visit: &mut dyn FnMut(&[Event])) {
    let size = alphabet.len();
    for number in 0..size.pow(length as u32) {
        let digit = |at: usize| alphabet[number / size.pow(at as u32) % size].clone();
        let list: Vec<Event> = (0..length).map(digit).collect();
        visit(&list);
    }
}

/// The list in its rooms, in two pieces, and as a document where the Rust can judge it.
pub(super) fn one(checks: &mut Checks, start: &State, list: &[Event]) {
    let rooms = rooms(start, list);
    let tape = Tape::of(list);
    for &lent in &rooms {
        checks.read(&start.sheet(lent), &tape);
    }
    let (first, second) = list.split_at(list.len() / 2);
    let between = checks.read(&start.sheet(rooms[0]), &Tape::of(first));
    checks.read(&between, &Tape::of(second));
    if start.events == 0 && !start.by_standard {
        checks.document(rooms[0], list);
    }
}
