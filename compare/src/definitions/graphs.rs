//! Lowering and label calls.

use super::call::Call;
use super::readings::roomy;
use super::sheets::random_state;
use super::{generator, Case};
use crate::names::{near_misses, BUILTIN_NAMES, OTHER_BUILTIN_NAMES};
use crate::paper::lowering::{lowering, SCRATCH_LEAST};
use crate::paper::reading::read;
use crate::paper::sheet::{names_used, Lent, Row, Sheet};
use crate::paper::state::State;
use crate::tape::{events, Event, Tape};
use crate::tapes::{document, messed, written};

const SEED: u64 = 0x6c75_6269_6b03;
const WORDS: &[u8] = b"String\nBool\nDecimal\nDate\nDateTime\n";

/// All cases about lowering and labels.
pub fn cases(seed: u64) -> Vec<Case> {
    [
        written_graphs(),
        random_graphs(seed),
        good_sheets(seed),
        builtin_names(),
        bytes_of_names(),
        tight_graphs(seed),
        refusals(),
        row_labels(),
        odd_labels(),
        random_labels(seed),
    ]
    .into_iter()
    .flatten()
    .collect()
}

fn lower_case(group: &'static str, shows: impl Into<String>, sheet: &Sheet, lent: Room) -> Case {
    Case {
        group,
        shows: shows.into(),
        call: Call::Lower(sheet.clone(), lent.graph(), vec![8; lent.scratch]),
    }
}

/// What is lent to a lowering; its old contents are not zero.
#[derive(Clone, Copy)]
struct Room {
    rows: usize,
    names: usize,
    scratch: usize,
}

impl Room {
    fn graph(self) -> Sheet {
        Sheet {
            rows: vec![6; self.rows],
            names: vec![200; self.names],
        }
    }

    /// The room that the graph of `sheet` takes exactly, as far as it has one.
    fn exact(sheet: &Sheet) -> Room {
        let large = Room {
            rows: 4_000,
            names: 4_000,
            scratch: 100,
        };
        let graph = lowering(sheet, &large.graph(), &vec![0; large.scratch]).graph;
        Room {
            rows: 10 * (graph.rows[1] as usize).max(2),
            names: graph.rows[2] as usize,
            scratch: SCRATCH_LEAST,
        }
    }

    fn roomy(sheet: &Sheet) -> Room {
        let exact = Room::exact(sheet);
        Room {
            rows: exact.rows + 20,
            names: exact.names + 3,
            scratch: exact.scratch + 2,
        }
    }
}

/// The sheet that `events` lead to from a cleared one.
fn sheet_after(events: &[Event]) -> Sheet {
    read(&roomy(events), &Tape::of(events)).1
}

fn written_graphs() -> Vec<Case> {
    let case = |list: &crate::tapes::Written| {
        let sheet = sheet_after(&list.events);
        lower_case("written graphs", list.shows, &sheet, Room::roomy(&sheet))
    };
    written().iter().map(case).collect()
}

fn random_graphs(seed: u64) -> Vec<Case> {
    let mut random = generator(SEED, seed);
    let case = |index: usize| {
        let events = if index.is_multiple_of(4) {
            messed(&mut random)
        } else {
            document(&mut random)
        };
        let sheet = sheet_after(&events);
        lower_case(
            "random graphs",
            format!("walk {index}"),
            &sheet,
            Room::roomy(&sheet),
        )
    };
    (0..100).map(case).collect()
}

/// Good sheets that no reading need reach.
fn good_sheets(seed: u64) -> Vec<Case> {
    let mut random = generator(SEED + 1, seed);
    let case = |index: usize| {
        let state = random_state(&mut random);
        let lent = Lent {
            rows: 20 + 10 * state.rows.len(),
            names: 2 + names_used(&state.rows),
        };
        let sheet = state.sheet(lent);
        lower_case(
            "graphs of good sheets",
            format!("state {index}"),
            &sheet,
            Room::roomy(&sheet),
        )
    };
    (0..60).map(case).collect()
}

/// The state of these rows, all types finished, lowered with room.
fn rows_case(group: &'static str, shows: impl Into<String>, rows: &[Row]) -> Case {
    let state = State {
        rows: [Row::new(1, &[""])].iter().chain(rows).cloned().collect(),
        root_seen: true,
        ..State::cleared()
    };
    let lent = Lent {
        rows: 20 + 10 * state.rows.len(),
        names: 2 + names_used(&state.rows),
    };
    let sheet = state.sheet(lent);
    lower_case(group, shows, &sheet, Room::roomy(&sheet))
}

/// The built-in names with and without a prefix, and names close to them.
fn builtin_texts() -> Vec<String> {
    let mut texts = Vec::new();
    for (index, name) in BUILTIN_NAMES.iter().chain(&OTHER_BUILTIN_NAMES).enumerate() {
        let misses = near_misses(name);
        texts.push(name.to_string());
        texts.push(format!("xs:{name}"));
        texts.push(misses[index % misses.len()].clone());
    }
    texts
}

/// The built-in names as references of variants and as bases of simple types.
fn builtin_names() -> Vec<Case> {
    let texts = builtin_texts();
    let case = |chunk: &[String]| {
        let mut rows = vec![Row::new(13, &["C"])];
        rows.extend(chunk.iter().map(|name| Row::new(19, &["v", name])));
        rows_case(
            "built-in names",
            format!("references from {}", chunk[0]),
            &rows,
        )
    };
    let base_case = |name: &String| {
        let rows = [Row::new(3, &["T", name]), Row::new(10, &[]).with(2, 0)];
        rows_case("built-in names", format!("the base {name}"), &rows)
    };
    let bases = texts.iter().step_by(5).map(base_case);
    texts.chunks(16).map(case).chain(bases).collect()
}

/// Every byte below 128 at each place of a name, in each conversion.
fn bytes_of_names() -> Vec<Case> {
    let code = |c: char| Row::new(4, &[&format!("{c}{c}-{c}B{c}")]);
    let field = |c: char| Row::new(17, &[&format!("{c}aB{c}CD{c}e"), &format!("{c}_{c}{c}")]);
    let case = |low: u8| {
        let bytes = || (low..low + 8).map(char::from);
        let mut rows = vec![Row::new(3, &["K", ""])];
        rows.extend(bytes().map(code));
        rows.push(Row::new(12, &["S"]));
        rows.extend(bytes().map(field));
        rows_case(
            "bytes of names",
            format!("bytes {low} to {}", low + 7),
            &rows,
        )
    };
    (0..16).map(|part| case(8 * part)).collect()
}

/// Exact fit, one row less, one byte less, no scratch to spare and one too few.
fn tight_graphs(seed: u64) -> Vec<Case> {
    let mut random = generator(SEED + 2, seed);
    let mut cases = Vec::new();
    for _ in 0..16 {
        let sheet = sheet_after(&document(&mut random));
        let exact = Room::exact(&sheet);
        let mut add = |shows: &str, lent: Room| {
            cases.push(lower_case("tight graphs", shows, &sheet, lent));
        };
        add("exact fit", exact);
        let rows = (exact.rows - 10).max(20);
        add("one row less", Room { rows, ..exact });
        let names = exact.names.saturating_sub(1);
        add("one byte less", Room { names, ..exact });
        let scratch = exact.scratch - 1;
        add("one number of scratch less", Room { scratch, ..exact });
    }
    cases
}

/// The refusals of lowering and their order.
fn refusals() -> Vec<Case> {
    let unknown = sheet_after(&events(
        "<schema><simpleType name=A><restriction base=QName/></></>",
    ));
    let one = sheet_after(&events("<schema><complexType name=a_b></>"));
    let cleared = sheet_after(&[]);
    let mut bad = unknown.clone();
    bad.rows[9] = 2;
    let mut short = unknown.clone();
    short.rows.truncate(19);
    let mut wide = unknown.clone();
    wide.names.resize(65_537, 0);
    let room = |rows, names, scratch| Room {
        rows,
        names,
        scratch,
    };
    let lists = [
        ("12 on a cleared sheet", cleared.clone(), room(40, 5, 64)),
        ("14 before 12", cleared.clone(), room(40, 5, 63)),
        ("12 before 15", cleared.clone(), room(20, 0, 64)),
        ("1 before 12", cleared, room(10, 0, 64)),
        ("13 with its row", unknown.clone(), room(40, 5, 64)),
        ("14 before 13", unknown.clone(), room(40, 5, 63)),
        ("13 before 15", unknown.clone(), room(20, 0, 64)),
        ("1 for the graph's rows", unknown.clone(), room(25, 5, 64)),
        (
            "1 for no rows of the graph",
            unknown.clone(),
            room(0, 5, 64),
        ),
        (
            "1 for too many rows of the graph",
            unknown.clone(),
            room(40_970, 5, 64),
        ),
        (
            "1 for the graph's names",
            unknown.clone(),
            room(40, 65_537, 64),
        ),
        ("1 for the sheet's rows", short, room(40, 5, 64)),
        ("1 for the sheet's names", wide, room(40, 5, 64)),
        ("2 on a bad sheet", bad.clone(), room(40, 5, 64)),
        ("2 before 14", bad.clone(), room(40, 5, 63)),
        ("1 before 2", bad, room(45, 5, 64)),
        (
            "15 is about the graph, not the sheet",
            one.clone(),
            room(30, 2, 64),
        ),
        ("15 by a row", one.clone(), room(20, 2, 64)),
        ("15 by a byte", one, room(30, 1, 64)),
        ("much scratch", unknown, room(40, 5, 70)),
    ];
    let case = |(shows, sheet, lent): (&str, Sheet, Room)| {
        lower_case("refusals of lowering", shows, &sheet, lent)
    };
    lists.into_iter().map(case).collect()
}

fn label_case(shows: impl Into<String>, graph: &Sheet, words: &[u8], row: u32) -> Case {
    Case {
        group: "labels",
        shows: shows.into(),
        call: Call::Label {
            rows: graph.rows.clone(),
            names: graph.names.clone(),
            words: words.to_vec(),
            row,
        },
    }
}

/// A graph with every kind of row that has a reference.
fn graph_of(lines: &str) -> Sheet {
    let sheet = sheet_after(&events(lines));
    let lent = Room::roomy(&sheet);
    lowering(&sheet, &lent.graph(), &vec![0; lent.scratch]).graph
}

/// Every row of a graph.
fn row_labels() -> Vec<Case> {
    let graph = graph_of("<schema targetNamespace=u><element name=R type=A/><simpleType name=N><restriction base=boolean><pattern value=p/></></><simpleType name=K><enumeration value=X/></><complexType name=A><sequence><element name=f type=a_b/><element name=g type=date/></></><complexType name=B><choice><element name=v type=N/><element name=w type=dateTime/></></><complexType name=V><simpleContent><extension base=decimal><attribute name=a type=string/><attribute name=b type=K/></></></><complexType name=W><simpleContent><extension base=x_y></></></><complexType name=O></>");
    let rows = graph.rows.len() as u32 / 10;
    let case = |row| label_case(format!("row {row} of a graph"), &graph, WORDS, row);
    (0..rows + 2)
        .chain([u32::MAX, 429_496_730])
        .map(case)
        .collect()
}

/// One row with these tag, second pair, third pair and a.
fn one_row(tag: u32, second: (u32, u32), third: (u32, u32), a: u32) -> Sheet {
    Sheet {
        rows: vec![tag, 9, 9, second.0, second.1, third.0, third.1, a, 9, 9],
        names: b"abcdef".to_vec(),
    }
}

fn odd_labels() -> Vec<Case> {
    let far = (7, 0);
    let mut cases = Vec::new();
    for (shows, second, third) in [
        ("a pair inside", (1, 3), (2, 2)),
        ("all of the names", (0, 6), (0, 6)),
        ("an empty pair at the end", (6, 0), (6, 0)),
        ("an empty pair past the end", far, far),
        ("a pair past the end", (4, 3), (4, 3)),
        ("a sum past 2^32", (u32::MAX, 1), (u32::MAX, 1)),
        ("the second pair outside", far, (1, 2)),
        ("the third pair outside", (1, 2), far),
    ] {
        for tag in [5, 7, 9, 10, 19] {
            let shows = format!("{shows}, tag {tag}");
            cases.push(label_case(shows, &one_row(tag, second, third, 0), b"", 0));
        }
    }
    for tag in [0, 1, 2, 3, 4, 6, 8, 11, 18, 20, u32::MAX] {
        cases.push(label_case(
            format!("tag {tag}"),
            &one_row(tag, (1, 2), (1, 2), 1),
            WORDS,
            0,
        ));
    }
    for a in [1, 2, 5, 6, u32::MAX] {
        for tag in [5, 7, 9, 10, 19] {
            let shows = format!("a {a}, tag {tag}");
            cases.push(label_case(shows, &one_row(tag, far, far, a), WORDS, 0));
        }
    }
    cases.extend(word_lists());
    cases.extend(row_lengths());
    cases
}

/// Word lists, good and bad.
fn word_lists() -> Vec<Case> {
    let lists: [(&str, &[u8]); 10] = [
        ("empty words", b"\n\n\n\n\n"),
        ("four words", b"a\nb\nc\nd\n"),
        ("six words", b"a\nb\nc\nd\ne\nf\n"),
        ("no newline at the end", b"a\nb\nc\nd\ne"),
        ("a byte after", b"a\nb\nc\nd\ne\nf"),
        ("an empty list", b""),
        ("high bytes", b"\xff\n\x80b\n\0\nd d\n\r\n"),
        ("a newline first", b"\na\nb\nc\nd\n"),
        ("one newline too many at the end", b"a\nb\nc\nd\ne\n\n"),
        ("long words", b"aaaaaaaaaaaa\nb\nc\nd\neeeeeeeeeeeeee\n"),
    ];
    let mut cases = Vec::new();
    for (shows, words) in lists {
        for a in [0, 1, 3, 5] {
            let graph = one_row(9, (0, 0), (1, 2), a);
            cases.push(label_case(format!("{shows}, a {a}"), &graph, words, 0));
        }
    }
    cases
}

/// Rows whose length is no multiple of ten, and rows that are not there.
fn row_lengths() -> Vec<Case> {
    let mut cases = Vec::new();
    let whole = one_row(9, (0, 0), (1, 2), 0);
    for length in [0, 1, 9, 10, 11, 19, 20] {
        let mut graph = whole.clone();
        graph.rows.resize(length, 0);
        for row in [0, 1] {
            cases.push(label_case(
                format!("{length} numbers, row {row}"),
                &graph,
                WORDS,
                row,
            ));
        }
    }
    cases
}

fn random_labels(seed: u64) -> Vec<Case> {
    let mut random = generator(SEED + 3, seed);
    let case = |index: usize| {
        let tag = [5, 7, 9, 10, 19, 9][random.below(6)];
        let mut small = || random.below(8) as u32;
        let graph = one_row(tag, (small(), small()), (small(), small()), small());
        label_case(format!("random {index}"), &graph, WORDS, 0)
    };
    (0..30).map(case).collect()
}
