//! Good sheets that no reading reaches, and bad sheets.

use super::call::Call;
use super::numbered::with_numbers;
use super::readings::{blank, damage_one, roomy};
use super::{generator, Case};
use crate::paper::agree;
use crate::paper::reading::{events_of, read};
use crate::paper::sheet::{names_used, Lent, Row, Sheet};
use crate::paper::state::State;
use crate::random::Random;
use crate::tape::{events, Tape};
use crate::tapes::{document, odd_events};

const SEED: u64 = 0x6c75_6269_6b02;

/// All cases about the form of sheets.
pub fn cases(seed: u64) -> Vec<Case> {
    [
        unreached_states(),
        random_states(seed),
        broken_conditions(),
        broken_rows(),
        damaged_sheets(seed),
    ]
    .into_iter()
    .flatten()
    .collect()
}

fn read_case(group: &'static str, shows: impl Into<String>, sheet: Sheet, tape: Tape) -> Case {
    Case {
        group,
        shows: shows.into(),
        call: Call::Read(sheet, tape),
    }
}

/// The state with these rows behind row 1.
fn state(context: u32, nesting: u32, open_tags: u32, rows: &[Row]) -> State {
    let mut all = vec![Row::new(1, &["u"])];
    all.extend_from_slice(rows);
    State {
        rows: all,
        context,
        nesting,
        root_seen: true,
        events: 0,
        open_tags,
        extension: false,
        by_standard: false,
    }
}

/// Room for the state, three rows and ten bytes more.
fn lent(state: &State) -> Lent {
    Lent {
        rows: 40 + 10 * state.rows.len(),
        names: 10 + names_used(&state.rows),
    }
}

/// The events tried on every good state; each state is checked against the handlers.
fn good_case(group: &'static str, shows: impl Into<String>, state: &State, tape: Tape) -> Case {
    let sheet = state.sheet(lent(state));
    assert_eq!(State::of(&sheet).as_ref(), Some(state), "the state is good");
    let mut now = state.clone();
    for event in events_of(&tape) {
        agree::check_event(&now, &event).unwrap_or_else(|difference| panic!("{difference}"));
        match now.after(&event, sheet.lent()) {
            Ok(next) => now = next,
            Err(_) => break,
        }
    }
    read_case(group, shows, sheet, tape)
}

fn simple_content() -> Vec<Row> {
    vec![
        Row::new(14, &["A", "B"]),
        Row::new(20, &["c", "d"]).with(1, 0),
    ]
}

fn unreached_states() -> Vec<Case> {
    let case = |(shows, state, lines): Unreached| {
        good_case("good sheets", shows, &state, Tape::of(&events(lines)))
    };
    let lists = [unreached_flags(), unreached_counts(), unreached_rows()];
    lists.concat().into_iter().map(case).collect()
}

/// What is shown, the state, the events read on it.
type Unreached = (&'static str, State, &'static str);

/// Simple content with attributes, and the flag where no event has set it.
fn unreached_flags() -> Vec<Unreached> {
    let attribute = "<attribute name=e type=f/>";
    let again = "<extension base=longer><attribute name=e type=f/></></></>";
    let unset = state(3, 1, 3, &simple_content());
    let set = State {
        extension: true,
        ..state(3, 0, 2, &simple_content())
    };
    vec![
        ("attributes and no flag", unset.clone(), attribute),
        ("attributes stay at a new extension", unset, again),
        ("a flag without nesting", set.clone(), attribute),
        (
            "a flag that the close ends",
            set,
            "</><complexType name=C><simpleContent>",
        ),
    ]
}

/// Counts of events and open tags that no reading leaves.
fn unreached_counts() -> Vec<Unreached> {
    let unread = State {
        events: 3,
        open_tags: 7,
        ..State::cleared()
    };
    let simple = state(2, 0, 2, &[Row::new(3, &["A", ""])]);
    let complex = state(3, 0, 2, &[Row::new(16, &["A"])]);
    let deep = state(3, 253, 255, &[Row::new(12, &["A"])]);
    let wide = state(2, 1, 200, &[Row::new(3, &["A", "x"])]);
    vec![
        (
            "no events in context 1",
            state(1, 0, 1, &[]),
            "<element name=A type=B/></></>",
        ),
        (
            "no events in context 2",
            simple,
            "<pattern value=p/></></></></>",
        ),
        ("no events in context 3", complex, "</></></></>"),
        (
            "more open tags than events",
            state(0, 0, 255, &[]),
            "</></>",
        ),
        ("root seen, no events", state(0, 0, 0, &[]), "<schema>"),
        ("open tags without root", unread.clone(), "</><schema>"),
        (
            "an empty schema, open tags before",
            unread,
            "<schema targetNamespace=v/>",
        ),
        (
            "the deepest nesting",
            deep,
            "<element name=a type=b/></></>",
        ),
        ("nesting below the open tags", wide, "</></></></>"),
    ]
}

/// Rows that no reading leaves so, and rows at their limits.
fn unreached_rows() -> Vec<Unreached> {
    let top = u32::MAX;
    let items = [Row::new(2, &["A", "B"]), Row::new(12, &["C"])];
    let any = |nesting, row: Row| state(3, nesting, 2 + nesting, &[row]);
    let namespace = Row::new(15, &["A", "n"]).with(1, 0);
    let variant = [
        Row::new(13, &["A"]),
        Row::new(19, &["", ""]),
        Row::new(2, &["", ""]),
    ];
    let unnamed = [
        Row::new(3, &["", ""]),
        Row::new(4, &[""]),
        Row::new(12, &[""]),
        Row::new(18, &["", ""]).with(top, 0),
    ];
    let largest = [
        Row::new(12, &["A"]),
        Row::new(17, &["b", "c"]).with(top, top),
    ];
    let nameless = "<element name='' type='' minOccurs=0/>";
    vec![
        (
            "items in context 0",
            state(0, 0, 0, &items),
            "<element name=x type=y/><schema/>",
        ),
        (
            "an open any with namespace",
            any(2, namespace),
            "<any/></></></>",
        ),
        (
            "an open any",
            any(0, Row::new(15, &["A"])),
            "<any namespace=''/></>",
        ),
        (
            "an open any is finished",
            any(0, Row::new(15, &["A"])),
            "</>",
        ),
        (
            "context 1 behind an element",
            state(1, 0, 9, &variant),
            "<complexType name=''>",
        ),
        ("empty names everywhere", state(3, 0, 2, &unnamed), nameless),
        (
            "every facet row",
            state(2, 3, 5, &facets()),
            "<totalDigits value=1/></>",
        ),
        ("the largest numbers", state(3, 0, 2, &largest), "</>"),
    ]
}

/// A head 3 with each kind of facet.
fn facets() -> Vec<Row> {
    vec![
        Row::new(3, &["A", "b"]),
        Row::new(4, &["e"]),
        Row::new(5, &["p"]),
        Row::new(6, &[]).with(1, u32::MAX),
        Row::new(7, &[]).with(u32::MAX, 1),
        Row::new(8, &["i"]),
        Row::new(9, &["j"]),
        Row::new(10, &[]).with(u32::MAX, 0),
        Row::new(11, &[]),
    ]
}

/// A random good state.
pub fn random_state(random: &mut Random) -> State {
    let mut rows = Vec::new();
    for _ in 0..random.below(4) {
        rows.extend(random_group(random, 5));
    }
    let context = random.below(4) as u32;
    rows.extend(open_group(random, context));
    let nesting = if context >= 2 {
        random.below(4) as u32
    } else {
        0
    };
    let last = rows.iter().rfind(|row| row.is_head());
    let extendable = context == 3 && last.is_some_and(|row| row.tag == 14);
    let unnumbered = State {
        events: random.below(50) as u32,
        extension: extendable && random.below(2) == 0,
        ..state(
            context,
            nesting,
            context.min(2) + nesting + random.below(3) as u32,
            &rows,
        )
    };
    with_numbers(unnumbered, random)
}

fn open_group(random: &mut Random, context: u32) -> Vec<Row> {
    match context {
        2 => random_group(random, 1),
        3 if random.below(4) == 0 => vec![Row::new(16, &["O"])],
        3 => loop {
            let group = random_group(random, 5);
            if group[0].tag >= 12 {
                return group;
            }
        },
        _ => Vec::new(),
    }
}

fn random_text(random: &mut Random) -> String {
    let length = random.below(4);
    random.text(b"abAB_:-9x", length)
}

/// A simple type, or with `kinds` 5 also a sequence, choice, simple content, any or element.
fn random_group(random: &mut Random, kinds: usize) -> Vec<Row> {
    let (name, other) = (random_text(random), random_text(random));
    let base = ["string", "date", "b"][random.below(3)];
    let children = random.below(3);
    let (head, tags): (Row, &[u32]) = match random.below(kinds + usize::from(kinds > 1)) {
        0 => (Row::new(3, &[&name, base]), &[4, 4, 5, 6, 7, 8, 9, 10, 11]),
        1 => (Row::new(12, &[&name]), &[17, 17, 18]),
        2 => (Row::new(13, &[&name]), &[19]),
        3 => (Row::new(14, &[&name, &other]), &[20]),
        4 => (any_row(&name, &other, random.below(2)), &[]),
        _ => (Row::new(2, &[&name, &other]), &[]),
    };
    let mut rows = vec![head];
    for _ in 0..if tags.is_empty() { 0 } else { children } {
        let tag = tags[random.below(tags.len())];
        rows.push(random_child(random, tag));
    }
    rows
}

fn any_row(name: &str, namespace: &str, a: usize) -> Row {
    match a {
        0 => Row::new(15, &[name]),
        _ => Row::new(15, &[name, namespace]).with(1, 0),
    }
}

fn random_child(random: &mut Random, tag: u32) -> Row {
    let (first, second) = (random_text(random), random_text(random));
    let number = [0, 1, 2, 9, u32::MAX][random.below(5)];
    let other = [0, 1, 2, 3][random.below(4)];
    match tag {
        4 | 5 | 8 | 9 => Row::new(tag, &[&first]),
        6 | 7 => Row::new(tag, &[]).with(number, other),
        10 | 11 => Row::new(tag, &[]).with(number, 0),
        17 => Row::new(tag, &[&first, &second]).with(number, other),
        18 => Row::new(tag, &[&first, &second]).with(number, 0),
        19 => Row::new(tag, &[&first, &second]),
        _ => Row::new(tag, &[&first, &second]).with(other % 2, 0),
    }
}

/// Random good states, with random events on them.
fn random_states(seed: u64) -> Vec<Case> {
    let mut random = generator(SEED, seed);
    let case = |index| {
        let state = random_state(&mut random);
        let count = 3 + random.below(4);
        let tape = Tape::of(&odd_events(&mut random, count));
        good_case(
            "good sheets at random",
            format!("state {index}"),
            &state,
            tape,
        )
    };
    (0..60).map(case).collect()
}

/// A sheet with every kind of row, in context 1, three events done.
fn full_sheet() -> Sheet {
    let mut rows = facets();
    rows.extend(simple_content());
    rows.extend([
        Row::new(12, &["S"]),
        Row::new(17, &["f", "g"]).with(0, 1),
        Row::new(18, &["h", "i"]),
        Row::new(13, &["C"]),
        Row::new(19, &["k", "l"]),
        Row::new(15, &["O"]),
        Row::new(15, &["P", "n"]).with(1, 0),
        Row::new(2, &["E", "T"]),
    ]);
    let state = State {
        events: 3,
        ..state(1, 0, 1, &rows)
    };
    state.sheet(lent(&state))
}

fn one_close() -> Tape {
    Tape::of(&events("</>"))
}

/// The sheet with one number of the row replaced.
fn with(sheet: &Sheet, row: usize, number: usize, value: u32) -> Sheet {
    let mut changed = sheet.clone();
    changed.rows[10 * row + number] = value;
    changed
}

/// The state's sheet.
fn sheet_of(state: &State) -> Sheet {
    state.sheet(lent(state))
}

/// The open type in context 3, with nesting 1 and no tag open that need not be.
fn complex(tag: u32, texts: &[&str]) -> Sheet {
    sheet_of(&state(3, 1, 3, &[Row::new(tag, texts)]))
}

/// The open simple type, with nesting 1 and no tag open that need not be.
fn simple() -> Sheet {
    sheet_of(&state(2, 1, 3, &[Row::new(3, &["A", "b"])]))
}

/// Each condition of "good" on row 0 and on the parts past the used ones, broken alone.
fn broken_conditions() -> Vec<Case> {
    let lists = [
        broken_counts(),
        broken_counters(),
        broken_contexts(),
        broken_flags(),
        broken_roots(),
        broken_names(),
    ];
    let case =
        |(shows, sheet): (&str, Sheet)| read_case("conditions of good", shows, sheet, one_close());
    lists.concat().into_iter().map(case).collect()
}

type Named = Vec<(&'static str, Sheet)>;

/// The outer numbers of row 0, rows used and names used, and the numbers past the used rows.
fn broken_counts() -> Named {
    let full = full_sheet();
    let used = full.rows[1];
    let names = full.rows[2];
    let cleared = blank(40, 5);
    vec![
        ("good as it is", full.clone()),
        ("the first number is not 0", with(&full, 0, 0, 1)),
        ("the last number is 1", with(&full, 0, 9, 1)),
        ("the last number is 2", with(&full, 0, 9, 2)),
        ("one row too few", with(&full, 0, 1, used - 1)),
        ("one row too many", with(&full, 0, 1, used + 1)),
        ("more rows than lent", with(&full, 0, 1, 500)),
        (
            "rows used times ten past 2^32",
            with(&full, 0, 1, 429_496_732),
        ),
        ("the largest rows used", with(&full, 0, 1, u32::MAX)),
        ("one row used", with(&cleared, 0, 1, 1)),
        ("no rows used", with(&cleared, 0, 1, 0)),
        ("one name too many", with(&full, 0, 2, names + 1)),
        ("one name too few", with(&full, 0, 2, names - 1)),
        ("more names than lent", with(&full, 0, 2, 500)),
        ("the largest names used", with(&full, 0, 2, u32::MAX)),
        (
            "a number past the used rows",
            with(&full, used as usize, 3, 1),
        ),
        (
            "the last number of all",
            with(&full, used as usize + 2, 9, 1),
        ),
    ]
}

/// Events done, open tags and nesting.
fn broken_counters() -> Named {
    let full = full_sheet();
    let deep = sheet_of(&state(3, 253, 255, &[Row::new(12, &["A"])]));
    vec![
        ("a million events", with(&full, 0, 6, 1_000_000)),
        ("more than a million events", with(&full, 0, 6, 1_000_001)),
        ("no open tag in context 1", with(&full, 0, 7, 0)),
        ("255 open tags", with(&full, 0, 7, 255)),
        ("256 open tags", with(&full, 0, 7, 256)),
        ("the largest open tags", with(&full, 0, 7, u32::MAX)),
        ("nesting in context 1", with(&full, 0, 4, 1)),
        ("nesting in context 0", with(&blank(40, 5), 0, 4, 1)),
        ("two open tags with nesting 1", with(&simple(), 0, 7, 2)),
        (
            "two open tags with nesting 1 in a complex type",
            with(&complex(12, &["A"]), 0, 7, 2),
        ),
        ("nesting above the open tags", with(&simple(), 0, 4, 2)),
        ("nesting + 2 past 2^32", with(&simple(), 0, 4, u32::MAX)),
        ("nesting + 2 of 2^32", with(&simple(), 0, 4, u32::MAX - 1)),
        ("nesting 254 with 255 open", with(&deep, 0, 4, 254)),
        (
            "nesting 254 with 256 open",
            with(&with(&deep, 0, 4, 254), 0, 7, 256),
        ),
    ]
}

/// The context against the last head.
fn broken_contexts() -> Named {
    let full = full_sheet();
    let closed = |sheet: &Sheet, context| with(&with(sheet, 0, 3, context), 0, 4, 0);
    vec![
        ("context 4", with(&full, 0, 3, 4)),
        ("context 4 with an open type", with(&simple(), 0, 3, 4)),
        ("context 2 without an open type", with(&full, 0, 3, 2)),
        ("context 3 without an open type", with(&full, 0, 3, 3)),
        ("context 3 with an open 3", with(&simple(), 0, 3, 3)),
        (
            "context 2 with an open 14",
            with(&complex(14, &["A", ""]), 0, 3, 2),
        ),
        ("context 1 with a 16", closed(&complex(16, &["A"]), 1)),
        ("context 0 with a 16", closed(&complex(16, &["A"]), 0)),
        (
            "context 1 with nothing open behind a 3",
            closed(&simple(), 1),
        ),
        (
            "context 0 with nothing open behind a 12",
            closed(&complex(12, &["A"]), 0),
        ),
    ]
}

/// The extension flag.
fn broken_flags() -> Named {
    let flagged = |sheet: &Sheet| with(sheet, 0, 8, 1);
    let value = complex(14, &["A", ""]);
    let closed = |context| with(&with(&value, 0, 3, context), 0, 4, 0);
    vec![
        ("the flag without an open type", flagged(&full_sheet())),
        ("the flag is 2", with(&value, 0, 8, 2)),
        ("the flag with an open 14", flagged(&value)),
        (
            "the flag with a closed 14 in context 1",
            flagged(&closed(1)),
        ),
        (
            "the flag with a closed 14 in context 0",
            flagged(&closed(0)),
        ),
        ("the flag with an open 12", flagged(&complex(12, &["A"]))),
        ("the flag with an open 16", flagged(&complex(16, &["A"]))),
        ("the flag in a simple type", flagged(&simple())),
        ("the flag on a cleared sheet", flagged(&blank(40, 5))),
    ]
}

/// Root seen, and what stands on a sheet without it.
fn broken_roots() -> Named {
    let full = full_sheet();
    let cleared = blank(40, 5);
    let unread = |context, rows: &[Row]| {
        let state = State {
            rows: rows.to_vec(),
            root_seen: false,
            ..state(context, 0, 1, &[])
        };
        sheet_of(&state)
    };
    let empty = || Row::new(1, &[""]);
    vec![
        ("no root seen in context 1", with(&full, 0, 5, 0)),
        ("root seen is 2", with(&full, 0, 5, 2)),
        (
            "no root seen in context 0 with items",
            with(&with(&full, 0, 5, 0), 0, 3, 0),
        ),
        (
            "no root seen, context 1, nothing else",
            unread(1, &[empty()]),
        ),
        (
            "no root seen, a namespace",
            unread(0, &[Row::new(1, &["u"])]),
        ),
        (
            "no root seen, an element without names",
            unread(0, &[empty(), Row::new(2, &["", ""])]),
        ),
        ("no root seen, an open tag", unread(0, &[empty()])),
        ("a cleared sheet with root seen", with(&cleared, 0, 5, 1)),
        ("a cleared sheet with root seen 2", with(&cleared, 0, 5, 2)),
        ("a cleared sheet in context 1", with(&cleared, 0, 3, 1)),
        ("a cleared sheet with open tags", with(&cleared, 0, 7, 4)),
        ("a cleared sheet with events", with(&cleared, 0, 6, 4)),
    ]
}

/// Bytes of the names.
fn broken_names() -> Named {
    let full = full_sheet();
    let named = |at: usize, value| {
        let mut changed = full.clone();
        changed.names[at] = value;
        changed
    };
    vec![
        ("a name past the used ones", named(full.rows[2] as usize, 1)),
        ("the last name of all", named(full.names.len() - 1, 7)),
        ("a used name of 127", named(2, 127)),
        ("a used name of 128", named(2, 128)),
        ("a used name of 255", named(0, 255)),
        ("a used name of 0", named(1, 0)),
    ]
}

/// Each number of each kind of row changed alone, rows of other tags, and rows in odd orders.
fn broken_rows() -> Vec<Case> {
    let case = |(shows, sheet)| read_case("rows of good", shows, sheet, one_close());
    [changed_numbers(), changed_tags(), ordered_rows()]
        .concat()
        .into_iter()
        .map(case)
        .collect()
}

fn changed_numbers() -> Vec<(String, Sheet)> {
    let full = full_sheet();
    let mut changed = Vec::new();
    for row in 1..full.rows[1] as usize {
        let tag = full.rows[10 * row];
        for number in 1..10 {
            let more = full.rows[10 * row + number].wrapping_add(1);
            let shows = format!("number {number} of row {row}, tag {tag}, one more");
            changed.push((shows, with(&full, row, number, more)));
        }
        let shows = format!("a of row {row}, tag {tag}, is 2");
        changed.push((shows, with(&full, row, 7, 2)));
    }
    changed
}

fn changed_tags() -> Vec<(String, Sheet)> {
    let full = full_sheet();
    let last = full.rows[1] as usize - 1;
    let mut pairs = vec![
        (1, 0),
        (1, 2),
        (2, 1),
        (3, 17),
        (4, 19),
        (11, 2),
        (12, 4),
        (13, 16),
        (14, 20),
        (17, 18),
    ];
    pairs.extend([0, 3, 16, 21, u32::MAX].map(|tag| (last, tag)));
    let change = |(row, tag)| (format!("tag {tag} in row {row}"), with(&full, row, 0, tag));
    pairs.into_iter().map(change).collect()
}

fn ordered_rows() -> Vec<(String, Sheet)> {
    let closed = odd_orders()
        .into_iter()
        .map(|(shows, rows)| (shows, state(1, 0, 1, &rows)));
    let open = odd_open_orders()
        .into_iter()
        .map(|(shows, rows)| (shows, state(3, 0, 2, &rows)));
    let made = |(shows, state): (&str, State)| (shows.to_owned(), sheet_of(&state));
    closed.chain(open).map(made).collect()
}

/// Rows in orders that context 1 may not have, and some that it may.
fn odd_orders() -> Vec<(&'static str, Vec<Row>)> {
    let facet = || Row::new(4, &["v"]);
    vec![
        ("a facet behind row 1", vec![facet()]),
        (
            "a facet behind an element",
            vec![Row::new(2, &["A", "B"]), facet()],
        ),
        (
            "a facet behind a sequence",
            vec![Row::new(12, &["A"]), facet()],
        ),
        (
            "a variant behind a sequence",
            vec![Row::new(12, &["A"]), Row::new(19, &["a", "b"])],
        ),
        (
            "an element with bound behind a choice",
            vec![Row::new(13, &["A"]), Row::new(17, &["a", "b"])],
        ),
        (
            "an attribute behind an any",
            vec![Row::new(15, &["A"]), Row::new(20, &["a", "b"])],
        ),
        ("a second row 1", vec![Row::new(1, &["v"])]),
        (
            "a facet behind a facet of a closed type",
            vec![
                Row::new(3, &["A", "b"]),
                facet(),
                Row::new(2, &["A", "B"]),
                facet(),
            ],
        ),
        (
            "types back to back",
            vec![
                Row::new(3, &["A", "b"]),
                Row::new(3, &["A", "b"]),
                facet(),
                Row::new(12, &["A"]),
                Row::new(13, &["A"]),
            ],
        ),
        ("a 16 that is closed", vec![Row::new(16, &["A"])]),
        (
            "a 16 in the middle",
            vec![Row::new(16, &["A"]), Row::new(2, &["A", "B"])],
        ),
    ]
}

/// Rows in orders of context 3.
fn odd_open_orders() -> Vec<(&'static str, Vec<Row>)> {
    let open = || Row::new(16, &["A"]);
    vec![
        ("an open 16", vec![open()]),
        ("a 16 with a child", vec![open(), Row::new(17, &["a", "b"])]),
        ("a 16 with a facet", vec![open(), Row::new(4, &["a"])]),
        ("two rows 16", vec![open(), open()]),
        ("a 16 before an open 12", vec![open(), Row::new(12, &["B"])]),
        (
            "a 16 behind a 12",
            vec![Row::new(12, &["B"]), Row::new(17, &["a", "b"]), open()],
        ),
        (
            "an element behind the open type",
            vec![Row::new(12, &["B"]), Row::new(2, &["a", "b"])],
        ),
        ("no type at all", vec![]),
        (
            "an open 3 in context 3",
            vec![Row::new(12, &["B"]), Row::new(3, &["a", "b"])],
        ),
    ]
}

/// Sheets of documents with one number or one name changed: mostly bad, some still good.
fn damaged_sheets(seed: u64) -> Vec<Case> {
    let mut random = generator(SEED + 1, seed);
    let case = |index: usize| {
        let events = document(&mut random);
        let blank = roomy(&events);
        let mut sheet = read(&blank, &Tape::of(&events)).1;
        if index.is_multiple_of(8) && !sheet.names.is_empty() {
            let at = random.below(sheet.names.len());
            sheet.names[at] = random.next_u64() as u8;
        } else {
            let used = 10 * sheet.rows[1] as usize;
            let end = if index.is_multiple_of(4) { 10 } else { used };
            damage_one(&mut sheet.rows[..end], &mut random);
        }
        read_case(
            "damaged sheets",
            format!("sheet {index}"),
            sheet,
            one_close(),
        )
    };
    (0..80).map(case).collect()
}
