//! Order 14, "notes in attributes change nothing": random runs through the library beside the same runs with notes added, dropped
//! and altered and the text moved about; and runs that differ in one of the nine words, which have to be noticed.

use std::collections::BTreeMap;

use crate::definitions::readings::{blank_by, cut};
use crate::grapher;
use crate::paper::lowering::{lowering, Lowered};
use crate::paper::reading::{events_of, read};
use crate::paper::sheet::Sheet;
use crate::paper::{answer, Answer};
use crate::random::Random;
use crate::reader;
use crate::tally::Tally;
use crate::tape::{Event, Tag, Tape};
use crate::tapes::{document, messed, odd_events};

const SEED: u64 = 0x6e6f_7465_7331;

/// How many runs are made; beside each stand one with other notes and one with a word changed.
const RUNS: usize = 120_000;

/// The words that count, by the order.
const WORDS: [&str; 9] = [
    "name",
    "type",
    "base",
    "value",
    "minOccurs",
    "maxOccurs",
    "use",
    "namespace",
    "targetNamespace",
];

/// Keys of notes: none has one of the words behind its last colon.
const NOTES: [&str; 14] = [
    "id",
    "xmlns",
    "xml:lang",
    "xmlns:x",
    "note",
    "Name",
    "names",
    "name:",
    "type:x",
    "",
    ":",
    "abstract",
    "min-occurs",
    "default",
];

/// A call of a run.
enum Step {
    Read(Vec<Event>),
    Lower(usize, usize, usize),
}

/// What is to be equal after a call: the answer, the sheet, and the graph unless 2 or 14.
#[derive(Debug, PartialEq)]
struct Left {
    answer: Answer,
    sheet: Sheet,
    graph: Option<Sheet>,
}

/// How a run is made: by the library, or by the model of paper 01.
type Reads = fn(&Sheet, &Tape) -> (Answer, Sheet);
type Lowers = fn(&Sheet, &Sheet, &[u32]) -> Lowered;

fn library_read(sheet: &Sheet, tape: &Tape) -> (Answer, Sheet) {
    let mut after = sheet.clone();
    let given = reader::read(&mut after, tape);
    (given, after)
}

fn library_lower(sheet: &Sheet, graph: &Sheet, scratch: &[u32]) -> Lowered {
    let mut lowered = Lowered {
        answer: answer(u32::MAX, u32::MAX),
        graph: graph.clone(),
        scratch: scratch.to_vec(),
    };
    grapher::lower(sheet, &mut lowered);
    lowered
}

/// Runs with notes beside runs without, and with a word changed.
pub fn compare() -> Vec<Tally> {
    let mut notes = Tally::new("runs beside the same with other notes and the text moved");
    let mut words = Tally::new("runs beside the same with one of the nine words changed: whether they differ, with the model");
    let mut noticed: BTreeMap<&str, u64> = BTreeMap::new();
    let mut random = Random::new(SEED);
    for index in 0..RUNS {
        let (first, steps) = run(&mut random, index);
        let plain = left(&first, &steps, &mut random, (library_read, library_lower));
        let noted: Vec<Step> = steps.iter().map(|step| alike(step, &mut random)).collect();
        let beside = left(&first, &noted, &mut random, (library_read, library_lower));
        if meets(&plain) || meets(&beside) {
            notes.leave_out();
        } else {
            plain.iter().for_each(|one| notes.given(one.answer.number));
            notes.compare("the run", &index, &plain, &beside);
        }
        if let Some((word, changed)) = changed(&steps, &mut random) {
            let ours = left(&first, &changed, &mut random, (library_read, library_lower));
            let model = left(&first, &changed, &mut random, (read, lowering));
            let before = left(&first, &steps, &mut random, (read, lowering));
            words.compare("the run", &index, before != model, plain != ours);
            *noticed.entry(word).or_default() += u64::from(plain != ours);
        }
    }
    let mut each = Tally::new("the nine words, each noticed where it was changed");
    for word in WORDS {
        let often = noticed.get(word).copied().unwrap_or_default();
        each.compare("changing", &(word, often), true, often > 0);
    }
    vec![notes, words, each]
}

/// A random run: a document in pieces, with lowerings in between, on a sheet cleared with 0 or 1, or damaged, or with little room.
fn run(random: &mut Random, index: usize) -> (Sheet, Vec<Step>) {
    let mut events = if index.is_multiple_of(3) {
        messed(random)
    } else {
        document(random)
    };
    if index.is_multiple_of(5) {
        events.extend(odd_events(random, 4));
    }
    let rows = if index.is_multiple_of(7) { 40 } else { 1_000 };
    let mut first = blank_by(rows, 4_000, index.is_multiple_of(2));
    if index.is_multiple_of(50) {
        first.rows[1] = 7;
    }
    let mut steps = Vec::new();
    for piece in cut(&events, random) {
        steps.push(Step::Read(piece));
        if random.below(2) == 0 {
            let rows = [1_000, 1_000, 40, 20][random.below(4)];
            steps.push(Step::Lower(rows, 4_000, [100, 100, 1][random.below(3)]));
        }
    }
    (first, steps)
}

/// What each call leaves. Graph and scratch hold other values each time.
fn left(first: &Sheet, steps: &[Step], random: &mut Random, by: (Reads, Lowers)) -> Vec<Left> {
    let mut sheet = first.clone();
    let mut all = Vec::new();
    for step in steps {
        all.push(match step {
            Step::Read(events) => {
                let (answer, after) = by.0(&sheet, &moved(events, random));
                sheet = after;
                Left {
                    answer,
                    sheet: sheet.clone(),
                    graph: None,
                }
            }
            Step::Lower(rows, names, scratch) => {
                let held = random.below(250) as u8;
                let graph = Sheet {
                    rows: vec![u32::from(held); *rows],
                    names: vec![held; *names],
                };
                let lowered = by.1(&sheet, &graph, &vec![7; *scratch]);
                let kept = matches!(lowered.answer.number, 2 | 14);
                Left {
                    answer: lowered.answer,
                    sheet: sheet.clone(),
                    graph: (!kept).then_some(lowered.graph),
                }
            }
        });
    }
    all
}

/// "If neither run meets 1, 3, 4 or 5"
fn meets(run: &[Left]) -> bool {
    run.iter().any(|one| matches!(one.answer.number, 1 | 3..=5))
}

/// The attribute's local word is one of the nine.
fn counts(key: &str) -> bool {
    key.rsplit(':')
        .next()
        .is_some_and(|word| WORDS.contains(&word))
}

/// The same call with other notes.
fn alike(step: &Step, random: &mut Random) -> Step {
    match step {
        Step::Lower(rows, names, scratch) => Step::Lower(*rows, *names, *scratch),
        Step::Read(events) => Step::Read(events.iter().map(|event| noted(event, random)).collect()),
    }
}

fn noted(event: &Event, random: &mut Random) -> Event {
    match event {
        Event::Start(tag) => Event::Start(noted_tag(tag, random)),
        Event::Empty(tag) => Event::Empty(noted_tag(tag, random)),
        Event::Close => Event::Close,
    }
}

fn noted_tag(tag: &Tag, random: &mut Random) -> Tag {
    let mut attributes = Vec::new();
    for (key, value) in &tag.attributes {
        note(&mut attributes, random);
        match random.below(3) {
            _ if counts(key) => attributes.push((key.clone(), value.clone())),
            0 => {}
            1 => attributes.push((key.clone(), format!("{value}."))),
            _ => attributes.push((key.clone(), value.clone())),
        }
    }
    note(&mut attributes, random);
    Tag {
        name: tag.name.clone(),
        attributes,
    }
}

/// Perhaps a note.
fn note(attributes: &mut Vec<(String, String)>, random: &mut Random) {
    if attributes.len() < 12 && random.below(2) == 0 {
        let key = NOTES[random.below(NOTES.len())];
        let length = random.below(6);
        attributes.push((key.to_owned(), random.text(b"name type=0:\"<&\n", length)));
    }
}

/// The tape of these events, its texts in gaps of any bytes, and used again where they stand.
fn moved(events: &[Event], random: &mut Random) -> Tape {
    let mut tape = Tape::default();
    for event in events {
        let (kind, tag) = match event {
            Event::Start(tag) => (1, tag),
            Event::Empty(tag) => (2, tag),
            Event::Close => {
                tape.marks.extend([3, 0]);
                continue;
            }
        };
        tape.marks.extend([kind, tag.attributes.len() as u32]);
        let mut end = put(&mut tape, 0, &tag.name, random);
        for (key, value) in &tag.attributes {
            end = put(&mut tape, end, key, random);
            end = put(&mut tape, end, value, random);
        }
    }
    debug_assert_eq!(events_of(&tape).len(), events.len());
    tape
}

/// Puts a pair for `piece` that starts at or after `from`; gives its end.
fn put(tape: &mut Tape, from: usize, piece: &str, random: &mut Random) -> usize {
    let length = piece.len();
    let known = (from..=tape.text.len()).find(|&at| tape.text[at..].starts_with(piece.as_bytes()));
    let offset = match known {
        Some(at) if random.below(3) == 0 => at,
        _ => {
            let gap = random.below(4);
            tape.text.extend((0..gap).map(|_| random.below(256) as u8));
            tape.text.extend(piece.bytes());
            tape.text.len() - length
        }
    };
    tape.marks.extend([offset as u32, length as u32]);
    offset + length
}

/// The run with one attribute of the nine dropped or altered, and its word; none where no event has one.
fn changed(steps: &[Step], random: &mut Random) -> Option<(&'static str, Vec<Step>)> {
    let all = steps.iter().map(places);
    let count: usize = all.map(|found| found.len()).sum();
    if count == 0 {
        return None;
    }
    let mut left = random.below(count);
    let mut word = WORDS[0];
    let made = steps
        .iter()
        .map(|step| {
            let found = places(step);
            let here = found.get(left).copied();
            left = left.wrapping_sub(found.len());
            match (step, here) {
                (Step::Read(events), Some((event, attribute))) => {
                    let mut events = events.clone();
                    let tag = tag_of(&mut events[event]);
                    let key = tag.attributes[attribute].0.clone();
                    word = WORDS
                        .into_iter()
                        .find(|word| key.rsplit(':').next() == Some(word))
                        .unwrap_or(word);
                    match random.below(2) {
                        0 => drop(tag.attributes.remove(attribute)),
                        _ => tag.attributes[attribute].1.push('7'),
                    }
                    left = usize::MAX / 2;
                    Step::Read(events)
                }
                (Step::Read(events), None) => Step::Read(events.clone()),
                (Step::Lower(rows, names, scratch), _) => Step::Lower(*rows, *names, *scratch),
            }
        })
        .collect();
    Some((word, made))
}

/// The attributes that count, by event and place.
fn places(step: &Step) -> Vec<(usize, usize)> {
    let Step::Read(events) = step else {
        return Vec::new();
    };
    let mut found = Vec::new();
    for (index, event) in events.iter().enumerate() {
        if let Event::Start(tag) | Event::Empty(tag) = event {
            let counted =
                |(k, (key, _)): (usize, &(String, String))| counts(key).then_some((index, k));
            found.extend(tag.attributes.iter().enumerate().filter_map(counted));
        }
    }
    found
}

fn tag_of(event: &mut Event) -> &mut Tag {
    match event {
        Event::Start(tag) | Event::Empty(tag) => tag,
        Event::Close => unreachable!("a close has no attributes"),
    }
}
