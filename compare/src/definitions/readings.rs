//! Tapes read with roomy and tight buffers, damaged, and in pieces.

use super::call::Call;
use super::{generator, Case};
use crate::paper::agree;
use crate::paper::reading::{clear, read};
use crate::paper::sheet::{Lent, Sheet};
use crate::paper::state::State;
use crate::random::Random;
use crate::tape::{events, Event, Tag, Tape};
use crate::tapes::{document, messed, odd_events, written};

const SEED: u64 = 0x6c75_6269_6b01;

/// All cases about reading and clearing.
pub fn cases(seed: u64) -> Vec<Case> {
    [
        written_tapes(),
        random_tapes(seed),
        tight_tapes(seed),
        freed_room(),
        damaged_tapes(),
        damaged_at_random(seed),
        outside_xml(),
        limits(),
        pieces(seed),
        lengths(),
    ]
    .into_iter()
    .flatten()
    .collect()
}

fn read_case(group: &'static str, shows: impl Into<String>, sheet: &Sheet, tape: Tape) -> Case {
    Case {
        group,
        shows: shows.into(),
        call: Call::Read(sheet.clone(), tape),
    }
}

/// A sheet of these lengths, cleared with the choice 0.
pub fn blank(rows: usize, names: usize) -> Sheet {
    blank_by(rows, names, false)
}

/// A sheet of these lengths, cleared with the choice 1, `by_standard`, or 0.
pub fn blank_by(rows: usize, names: usize, by_standard: bool) -> Sheet {
    State::cleared_by(by_standard).sheet(Lent { rows, names })
}

/// Room for every state on the way through `events`, two rows and three bytes more.
pub fn roomy(events: &[Event]) -> Sheet {
    roomy_by(events, false)
}

/// The same, cleared with the choice 1, `by_standard`, or 0.
pub fn roomy_by(events: &[Event], by_standard: bool) -> Sheet {
    let peak = peak_by(events, by_standard);
    blank_by(peak.rows + 20, peak.names + 3, by_standard)
}

/// The most rows and the most names of a state on the way through `events`.
fn peak(events: &[Event]) -> Lent {
    peak_by(events, false)
}

fn peak_by(events: &[Event], by_standard: bool) -> Lent {
    let mut sheet = blank_by(40_000, 60_000, by_standard);
    let mut peak = Lent { rows: 20, names: 0 };
    for event in events {
        sheet = read(&sheet, &Tape::of(std::slice::from_ref(event))).1;
        peak.rows = peak.rows.max(10 * sheet.rows[1] as usize);
        peak.names = peak.names.max(sheet.rows[2] as usize);
    }
    peak
}

fn checked(events: &[Event]) {
    if let Err(difference) = agree::check_tape(events) {
        panic!("{difference}");
    }
}

fn written_tapes() -> Vec<Case> {
    let case = |list: &crate::tapes::Written| {
        checked(&list.events);
        let tape = Tape::of(&list.events);
        read_case("written tapes", list.shows, &roomy(&list.events), tape)
    };
    written().iter().map(case).collect()
}

/// The events that both random groups take in turn.
fn random_events(random: &mut Random, index: usize) -> Vec<Event> {
    let events = match index % 3 {
        0 => messed(random),
        _ => document(random),
    };
    checked(&events);
    events
}

fn random_tapes(seed: u64) -> Vec<Case> {
    let mut random = generator(SEED, seed);
    let case = |index| {
        let events = random_events(&mut random, index);
        let tape = match index % 4 {
            0 => Tape::shared(&events),
            _ => Tape::of(&events),
        };
        read_case(
            "random tapes",
            format!("walk {index}"),
            &roomy(&events),
            tape,
        )
    };
    (0..120).map(case).collect()
}

/// Exact fit, one row less, one byte of names less.
fn tight_tapes(seed: u64) -> Vec<Case> {
    let mut random = generator(SEED + 1, seed);
    let mut cases = Vec::new();
    for index in 0..24 {
        let events = random_events(&mut random, index);
        let Lent { rows, names } = peak(&events);
        let tape = Tape::of(&events);
        let mut add = |shows: &str, rows, names| {
            cases.push(read_case(
                "tight buffers",
                shows,
                &blank(rows, names),
                tape.clone(),
            ));
        };
        add("exact fit", rows, names);
        add("one row less", (rows - 10).max(20), names);
        add("one byte less", rows, names.saturating_sub(1));
    }
    cases
}

/// Replaced content, bases and namespaces free their room; no peak in between counts.
fn freed_room() -> Vec<Case> {
    let lists = [
        ("a shorter namespace", "<schema targetNamespace=abcdef></><schema targetNamespace=ab><element name=cd type=ef/>", 30, 6),
        ("a longer namespace", "<schema targetNamespace=ab><element name=cd type=ef/></><schema targetNamespace=abc/>", 30, 6),
        ("a namespace as long", "<schema targetNamespace=ab><element name=cd type=ef/></><schema targetNamespace=xy/>", 30, 6),
        ("content replaced in place", "<schema><complexType name=A><sequence><element name=ab type=cd/></><choice><element name=ef type=gh/>", 40, 5),
        ("content replaced by one longer by a byte", "<schema><complexType name=A><sequence><element name=ab type=cd/></><choice><element name=ef type=ghi/>", 40, 5),
        ("an any with a namespace in the freed room", "<schema><complexType name=A><sequence><element name=ab type=cd/><any namespace=wxyz/>", 40, 5),
        ("an any with too long a namespace", "<schema><complexType name=A><sequence><element name=ab type=cd/><any namespace=vwxyz/>", 40, 5),
        ("a base replaced", "<schema><simpleType name=A><restriction base=string/><restriction base=xs:int/>", 30, 7),
        ("a base too long", "<schema><simpleType name=A><restriction base=string/><restriction base=integer/>", 30, 7),
        ("an extension's base replaced", "<schema><complexType name=A><simpleContent><extension base=abc><attribute name=d type=e/></><extension base=fgh>", 40, 6),
        ("an extension's base too long", "<schema><complexType name=A><simpleContent><extension base=abc><attribute name=d type=e/></><extension base=fghi>", 40, 6),
        ("no row for a type", "<schema><element name=a type=b/><simpleType name=''></>", 30, 9),
        ("no row for the namespace's own event", "<schema targetNamespace=abc>", 20, 3),
        ("a namespace too long", "<schema targetNamespace=abcd>", 20, 3),
        ("a full sheet takes events that add nothing", "<schema targetNamespace=abc><x></></><schema targetNamespace=''/>", 20, 3),
        ("a bad number comes before the room", "<schema><complexType name=A><sequence><element name=ab type=cd minOccurs=x/>", 30, 1),
        ("a missing name comes before the room", "<schema><complexType>", 20, 0),
        ("an accepted type without room", "<schema><complexType name=A>", 20, 5),
    ];
    let case = |(shows, lines, rows, names): (&str, &str, usize, usize)| {
        read_case(
            "room used again",
            shows,
            &blank(rows, names),
            Tape::of(&events(lines)),
        )
    };
    lists.into_iter().map(case).collect()
}

/// The printed specimen.
fn specimen() -> Tape {
    Tape::of(&events("<schema><element name=D type=T/></>"))
}

/// Text `schemaelementnameDtypeT` and these marks.
fn over_specimen(marks: &[u32]) -> Tape {
    Tape {
        text: specimen().text,
        marks: marks.to_vec(),
    }
}

fn damaged_tapes() -> Vec<Case> {
    let top = u32::MAX;
    let marks: Vec<(&str, Vec<u32>)> = vec![
        ("one number left", vec![1, 0, 0, 6, 1]),
        ("a kind alone", vec![3]),
        ("kind 0", vec![0, 0, 0, 6]),
        ("kind 4", vec![4, 0, 0, 6]),
        ("the largest kind", vec![top, 0, 0, 6]),
        (
            "a close with an attribute",
            vec![1, 0, 0, 6, 3, 1, 0, 6, 0, 1, 1, 1],
        ),
        (
            "a close with an attribute and nothing behind",
            vec![1, 0, 0, 6, 3, 1],
        ),
        ("a start without its pair", vec![1, 0]),
        ("a start with half a pair", vec![1, 0, 0]),
        ("an attribute without its value", vec![1, 1, 0, 6, 6, 1]),
        ("an attribute with half a value", vec![1, 1, 0, 6, 6, 1, 7]),
        ("a count that no marks can hold", vec![1, 32, 0, 6]),
        ("the largest count", vec![1, top, 0, 6]),
        ("a pair past the text", vec![1, 0, 18, 6]),
        ("a pair up to the end", vec![1, 0, 17, 6]),
        ("an empty pair at the end", vec![1, 0, 23, 0]),
        ("an empty pair past the end", vec![1, 0, 24, 0]),
        ("a sum of 2^32", vec![1, 0, top, 1]),
        ("a sum past 2^32 that wraps to the text", vec![1, 0, top, 7]),
        ("the largest offset", vec![1, 0, top, 0]),
        ("the largest length", vec![1, 0, 0, top]),
        ("the largest length behind a byte", vec![1, 0, 1, top]),
        (
            "a key before the end of the tag",
            vec![1, 1, 0, 6, 5, 1, 6, 1],
        ),
        ("a key at the end of the tag", vec![1, 1, 0, 6, 6, 1, 7, 1]),
        ("a value before the key", vec![1, 1, 0, 6, 8, 1, 7, 1]),
        ("an empty key inside the tag", vec![1, 1, 0, 6, 5, 0, 6, 1]),
        ("a gap between pairs", vec![1, 1, 0, 6, 9, 2, 20, 3]),
        (
            "events share their text",
            vec![1, 0, 0, 6, 2, 0, 0, 6, 1, 0, 3, 2],
        ),
        (
            "an event may start before the one before it",
            vec![2, 0, 10, 6, 1, 0, 0, 6],
        ),
        (
            "4 stands before 6 of the next event",
            vec![1, 0, 0, 6, 1, 0, 30, 0, 3, 0, 3, 0],
        ),
        (
            "a fault in an ignored tag",
            vec![1, 0, 7, 3, 2, 1, 7, 3, 0, 1, 1, 1],
        ),
    ];
    let case = |(shows, marks): (&str, Vec<u32>)| {
        read_case("damaged tapes", shows, &blank(40, 8), over_specimen(&marks))
    };
    let mut cases: Vec<Case> = marks.into_iter().map(case).collect();
    cases.extend(high_bytes());
    cases.extend(many_attributes());
    cases
}

fn high_bytes() -> Vec<Case> {
    let text = b"schema\x80key\xffv\x7f".to_vec();
    let marks: Vec<(&str, Vec<u32>)> = vec![
        ("a high byte under no pair", vec![1, 0, 0, 6, 2, 0, 7, 3]),
        ("a high byte under the tag", vec![1, 0, 0, 7]),
        ("a high byte under a key", vec![1, 1, 0, 6, 6, 4, 11, 1]),
        (
            "a high byte under a value",
            vec![1, 0, 0, 6, 1, 1, 0, 6, 7, 3, 10, 2],
        ),
        ("byte 127 under a value", vec![1, 1, 0, 6, 7, 3, 11, 2]),
        (
            "4 of the last pair before 5 of the first",
            vec![1, 1, 0, 7, 7, 3, 6, 1],
        ),
        ("4 before 5 in one pair", vec![1, 0, 5, 99]),
        ("3 before 4 and 5", vec![1, 1, 0, 7, 99, 3]),
        ("5 before 6 cannot meet, 6 alone", vec![3, 0, 1, 0, 0, 7]),
        ("an empty pair on a high byte", vec![1, 0, 6, 0, 1, 0, 0, 6]),
    ];
    let case = |(shows, marks): (&str, Vec<u32>)| {
        let tape = Tape {
            text: text.clone(),
            marks,
        };
        read_case("damaged tapes", shows, &blank(20, 3), tape)
    };
    marks.into_iter().map(case).collect()
}

/// 32 attributes pass, 33 give 3.
fn many_attributes() -> Vec<Case> {
    let tape = |count: usize| {
        let mut attributes = vec![("k".to_owned(), String::new()); count - 1];
        attributes.push(("targetNamespace".to_owned(), "u".to_owned()));
        Tape::of(&[Event::Start(Tag {
            name: "schema".to_owned(),
            attributes,
        })])
    };
    let case = |count| {
        let shows = format!("{count} attributes");
        read_case("damaged tapes", shows, &blank(20, 3), tape(count))
    };
    [31, 32, 33].into_iter().map(case).collect()
}

/// Documents with one mark or one byte changed, or cut anywhere.
fn damaged_at_random(seed: u64) -> Vec<Case> {
    let mut random = generator(SEED + 2, seed);
    let case = |index: usize| {
        let events = document(&mut random);
        let mut tape = Tape::of(&events);
        let shows = damage_tape(&mut tape, &mut random, index);
        read_case("damaged at random", shows, &roomy(&events), tape)
    };
    (0..48).map(case).collect()
}

/// Damages a tape in one of four ways; gives what was done.
pub fn damage_tape(tape: &mut Tape, random: &mut Random, way: usize) -> &'static str {
    match way % 4 {
        0 => {
            tape.marks.truncate(random.below(tape.marks.len() + 1));
            "cut short"
        }
        1 if !tape.text.is_empty() => {
            let at = random.below(tape.text.len());
            tape.text[at] = 128 + random.below(128) as u8;
            "one byte above 127"
        }
        _ => {
            damage_one(&mut tape.marks, random);
            "one mark changed"
        }
    }
}

/// Changes one number of `list`.
pub fn damage_one(list: &mut [u32], random: &mut Random) {
    let at = random.below(list.len());
    let old = list[at];
    list[at] = match random.below(8) {
        0 => old.wrapping_add(1),
        1 => old.wrapping_sub(1),
        2 => 0,
        3 => 1,
        4 => random.below(24) as u32,
        5 => u32::MAX,
        6 => old.wrapping_add(10),
        _ => random.next_u64() as u32,
    };
}

/// Tapes that no XML text stands for: the paper alone decides.
fn outside_xml() -> Vec<Case> {
    let in_schema = |event: Event| vec![Event::Start(Tag::of("schema", &[])), event];
    let elements = odd_elements()
        .into_iter()
        .map(|(shows, tag)| (shows, in_schema(Event::Empty(tag))));
    let case = |(shows, events): (&str, Vec<Event>)| {
        read_case("outside XML", shows, &roomy(&events), Tape::of(&events))
    };
    elements.chain(odd_lists()).map(case).collect()
}

/// Empty tags inside a schema.
fn odd_elements() -> Vec<(&'static str, Tag)> {
    let element = |attributes: &[(&str, &str)]| Tag::of("element", attributes);
    let named = [("name", "A"), ("type", "B")];
    let twice = [("name", "A"), ("name", "B"), ("type", "C"), ("type", "D")];
    vec![
        ("equal keys, the first counts", element(&twice)),
        (
            "control bytes in names",
            element(&[("name", "a\n\t\0b"), ("type", "\x7f\x01")]),
        ),
        (
            "signs of XML in values",
            element(&[("name", "<a>"), ("type", "\"&amp;\\")]),
        ),
        (
            "an empty key",
            element(&[("", "x"), ("name", "A"), ("type", "B")]),
        ),
        ("a space in the tag", Tag::of(" element", &named)),
        (
            "a space in a key",
            element(&[(" name", "A"), ("type", "B")]),
        ),
        (
            "names of colons",
            element(&[("x::name", "::"), ("type:type", ":")]),
        ),
    ]
}

fn odd_lists() -> Vec<(&'static str, Vec<Event>)> {
    let schema = || Event::Start(Tag::of("schema", &[]));
    let nameless = || Event::Start(Tag::of("", &[]));
    let colon = Event::Start(Tag::of(":", &[]));
    let newline = Event::Start(Tag::of("simpleType", &[("name", "\n")]));
    let length = Event::Empty(Tag::of("minLength", &[("value", "1\n")]));
    vec![
        ("an empty tag name", vec![nameless(), schema(), nameless()]),
        ("a tag name of a colon", vec![colon, Event::Close, schema()]),
        (
            "a close too many at the start",
            vec![Event::Close, schema()],
        ),
        (
            "a close too many",
            vec![schema(), Event::Close, Event::Close],
        ),
        ("a number with a newline", vec![schema(), newline, length]),
    ]
}

/// The state after `lines`, with other counts of events and open tags.
fn state_with(lines: &str, events_done: u32, open_tags: u32) -> Sheet {
    let mut state = agree::run(&events(lines)).expect("the events are accepted");
    state.events = events_done;
    state.open_tags = open_tags;
    state.sheet(Lent { rows: 60, names: 9 })
}

/// What is shown, the events before, events done and open tags put in their place, the events read.
type Limit = (&'static str, &'static str, u32, u32, &'static str);

const TYPE_OPEN: &str = "<schema><simpleType name=A>";
const LIMITS: [Limit; 17] = [
    ("the 255th open tag", "<schema>", 9, 254, "<x>"),
    ("the 256th open tag", "<schema>", 9, 254, "<x><x>"),
    (
        "an empty tag with 255 open",
        "<schema>",
        9,
        255,
        "<element name=a type=b/>",
    ),
    ("a close with 255 open", "<schema>", 9, 255, "</><schema>"),
    ("7 before 9", "<schema>", 9, 255, "<simpleType>"),
    (
        "7 before 11",
        "<schema>",
        9,
        255,
        "<simpleType name=abcdefghijkl>",
    ),
    ("9 with 254 open", "<schema>", 9, 254, "<simpleType>"),
    (
        "the last event of all",
        "<schema>",
        999_999,
        1,
        "<element name=a type=b/>",
    ),
    (
        "one more than the last",
        "<schema>",
        999_998,
        1,
        "<x><x><x>",
    ),
    ("8 with a million done", "<schema>", 1_000_000, 1, "<x/>"),
    ("8 before 6", "", 1_000_000, 0, "</>"),
    ("8 before 7", "<schema>", 1_000_000, 255, "<x>"),
    ("8 before 9", "<schema>", 1_000_000, 1, "<simpleType>"),
    ("no event with a million done", "<schema>", 1_000_000, 1, ""),
    ("6 in context 0", "", 5, 0, "<x></></>"),
    ("nesting up to 253", TYPE_OPEN, 9, 253, "<a><b></><c><d>"),
    (
        "10 with 255 open",
        TYPE_OPEN,
        9,
        255,
        "<minLength value=x/>",
    ),
];

/// The limits 6, 7 and 8, and their order.
fn limits() -> Vec<Case> {
    let case = |(shows, before, done, open, lines): Limit| {
        let sheet = state_with(before, done, open);
        read_case("limits", shows, &sheet, Tape::of(&events(lines)))
    };
    let cut = Tape {
        text: b"x".to_vec(),
        marks: vec![2, 0, 0],
    };
    let done = state_with("<schema>", 1_000_000, 1);
    let first = read_case("limits", "3 before 8", &done, cut);
    [first].into_iter().chain(LIMITS.map(case)).collect()
}

/// Documents in two to four pieces, each read on the sheet of the one before; some pieces are
/// refused, and the next goes on from the state.
fn pieces(seed: u64) -> Vec<Case> {
    let mut random = generator(SEED + 3, seed);
    let mut cases = Vec::new();
    for index in 0..30 {
        let mut events = random_events(&mut random, index);
        if index % 5 == 4 {
            let more = odd_events(&mut random, 5);
            events.extend(more);
        }
        let mut sheet = roomy(&events);
        if index % 4 == 3 {
            sheet = blank(30, 6);
        }
        for (number, piece) in cut(&events, &mut random).iter().enumerate() {
            let tape = Tape::of(piece);
            let shows = format!("run {index}, piece {number}");
            cases.push(read_case("pieces", shows, &sheet, tape.clone()));
            sheet = read(&sheet, &tape).1;
        }
    }
    cases
}

/// The list in two to four pieces.
pub fn cut(events: &[Event], random: &mut Random) -> Vec<Vec<Event>> {
    let mut ends: Vec<usize> = (0..1 + random.below(3))
        .map(|_| random.below(events.len() + 1))
        .collect();
    ends.push(events.len());
    ends.sort_unstable();
    let mut from = 0;
    let mut pieces = Vec::new();
    for to in ends {
        pieces.push(events[from..to].to_vec());
        from = to;
    }
    pieces
}

/// The lengths that 1 refuses, in clearing and reading.
fn lengths() -> Vec<Case> {
    let mut cases = Vec::new();
    for (rows, names) in [
        (0, 5),
        (10, 5),
        (19, 5),
        (20, 0),
        (20, 5),
        (21, 5),
        (25, 1),
        (30, 1),
        (39, 0),
        (40_960, 0),
        (40_970, 0),
        (40_961, 3),
        (20, 65_536),
        (20, 65_537),
        (10, 65_537),
    ] {
        let sheet = Sheet {
            rows: vec![7; rows],
            names: vec![9; names],
        };
        let shows = format!("{rows} numbers and {names} names");
        cases.push(Case {
            group: "lengths",
            shows: format!("clear, {shows}"),
            call: Call::Clear(sheet.clone(), 0),
        });
        cases.push(read_case(
            "lengths",
            format!("unchanged, {shows}"),
            &sheet,
            specimen(),
        ));
        let cleared = clear(&sheet, 0).1;
        cases.push(read_case(
            "lengths",
            format!("read, {shows}"),
            &cleared,
            specimen(),
        ));
    }
    cases.extend(long_tapes());
    cases
}

fn long_tapes() -> Vec<Case> {
    let tape = |text, marks| Tape {
        text: vec![b'a'; text],
        marks: vec![9; marks],
    };
    let mut bad = blank(20, 3);
    bad.rows[9] = 2;
    let lists = [
        ("the longest text", blank(20, 3), tape(65_536, 0)),
        ("a text too long", blank(20, 3), tape(65_537, 0)),
        ("the longest marks", blank(20, 3), tape(0, 16_384)),
        ("marks too long", blank(20, 3), tape(0, 16_385)),
        ("1 before 2", bad.clone(), tape(65_537, 0)),
        ("an empty piece over a bad sheet", bad, tape(0, 0)),
        ("an empty piece", blank(20, 3), tape(0, 0)),
    ];
    let case =
        |(shows, sheet, tape): (&str, Sheet, Tape)| read_case("lengths", shows, &sheet, tape);
    lists.into_iter().map(case).collect()
}
