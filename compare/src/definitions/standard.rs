//! Order 3: sheets cleared with each choice, with the answers and row 0 worked out by hand; and sheets by the standard that no reading reaches.

use super::call::Call;
use super::readings::{blank_by, roomy_by};
use super::sheets::random_state;
use super::{generator, Case};
use crate::paper::sheet::{names_used, Lent, Sheet};
use crate::paper::state::State;
use crate::paper::{answer, Answer};
use crate::random::Random;
use crate::tape::{events, Tape};
use crate::tapes::{document, messed, odd_events};

const SEED: u64 = 0x6c75_6269_6b05;

/// Events read into a sheet cleared with a choice, and what must be answered and stand in row 0.
pub struct Example {
    pub shows: &'static str,
    pub by_standard: bool,
    pub tape: Tape,
    pub sheet: Sheet,
    pub answer: Answer,
    pub row0: [u32; 10],
}

/// The example of the tags in `lines`.
fn example(
    shows: &'static str,
    by_standard: bool,
    lines: &str,
    given: (u32, u32),
    row0: [u32; 10],
) -> Example {
    let list = events(lines);
    Example {
        shows,
        by_standard,
        tape: Tape::of(&list),
        sheet: roomy_by(&list, by_standard),
        answer: answer(given.0, given.1),
        row0,
    }
}

/// All of them.
pub fn examples() -> Vec<Example> {
    [annotated(), nameless(), ends(), deep()]
        .into_iter()
        .flatten()
        .collect()
}

/// A documented schema under each choice, and what is passed over.
fn annotated() -> Vec<Example> {
    let documented = "<schema targetNamespace=N><annotation><documentation></></><simpleType name=A><restriction base=string/></><element name=r type=A><annotation></></><simpleType name=B><restriction base=string/></></>";
    let numbers = "<schema><annotation><minLength value=x/><element name=a type=b/></></>";
    let redefined = "<schema><redefine><simpleType name=A><restriction base=string/></></><element name=e type=A/></>";
    let twice =
        "<schema targetNamespace=u><schema targetNamespace=v></><element name=a type=b/></>";
    vec![
        example(
            "annotations",
            true,
            documented,
            (0, 16),
            [0, 5, 17, 0, 0, 1, 16, 0, 0, 1],
        ),
        example(
            "annotations",
            false,
            documented,
            (0, 16),
            [0, 2, 1, 0, 0, 1, 16, 0, 0, 0],
        ),
        example(
            "below a tag nothing is parsed or kept",
            true,
            numbers,
            (0, 6),
            [0, 2, 0, 0, 0, 1, 6, 0, 0, 1],
        ),
        example(
            "any close ends the schema",
            false,
            numbers,
            (0, 6),
            [0, 3, 2, 0, 0, 1, 6, 0, 0, 0],
        ),
        example(
            "types below a redefine",
            true,
            redefined,
            (0, 8),
            [0, 3, 2, 0, 0, 1, 8, 0, 0, 1],
        ),
        example(
            "types below a redefine",
            false,
            redefined,
            (0, 8),
            [0, 3, 7, 0, 0, 1, 8, 0, 0, 0],
        ),
        example(
            "a schema in a schema is an unknown tag",
            true,
            twice,
            (0, 5),
            [0, 3, 3, 0, 0, 1, 5, 0, 0, 1],
        ),
        example(
            "a schema in a schema is an unknown tag",
            false,
            twice,
            (0, 5),
            [0, 2, 1, 0, 0, 1, 5, 0, 0, 0],
        ),
    ]
}

/// Types without a name.
fn nameless() -> Vec<Example> {
    let under = "<schema><element name=r><complexType></></><element name=b type=t/>";
    let direct = "<schema><complexType>";
    let below = "<schema><foo><complexType>";
    let empty = "<schema><complexType/><simpleType/>";
    vec![
        example(
            "a nameless type under an element",
            true,
            under,
            (0, 6),
            [0, 3, 2, 1, 0, 1, 6, 1, 0, 1],
        ),
        example(
            "a nameless type under an element",
            false,
            under,
            (9, 2),
            [0, 2, 0, 1, 0, 1, 2, 2, 0, 0],
        ),
        example(
            "a nameless direct child",
            true,
            direct,
            (9, 1),
            [0, 2, 0, 1, 0, 1, 1, 1, 0, 1],
        ),
        example(
            "a nameless direct child",
            false,
            direct,
            (9, 1),
            [0, 2, 0, 1, 0, 1, 1, 1, 0, 0],
        ),
        example(
            "a nameless type under any tag",
            true,
            below,
            (0, 3),
            [0, 2, 0, 1, 2, 1, 3, 3, 0, 1],
        ),
        example(
            "a nameless type under any tag",
            false,
            below,
            (9, 2),
            [0, 2, 0, 1, 0, 1, 2, 2, 0, 0],
        ),
        example(
            "nameless empty tags",
            true,
            empty,
            (0, 3),
            [0, 2, 0, 1, 0, 1, 3, 1, 0, 1],
        ),
    ]
}

/// What ends the schema.
fn ends() -> Vec<Example> {
    let around = "<x><schema></><element name=b type=t/>";
    let started =
        "<schema><element name=a type=b></><element name=c type=d/></><element name=e type=f/>";
    let typeless = "<schema><element name=a></><element name=c type=d/>";
    let again =
        "<schema targetNamespace=u><element name=a type=b/></><x/><schema><element name=c type=d/>";
    let kind = "<schema><complexType name=A><sequence></></><foo></><element name=c type=d/>";
    let empty = "<schema/><element name=a type=b/>";
    vec![
        example(
            "a tag around the schema stays open",
            true,
            around,
            (0, 4),
            [0, 2, 0, 0, 0, 1, 4, 1, 0, 1],
        ),
        example(
            "a started element is kept and counted",
            true,
            started,
            (0, 6),
            [0, 4, 4, 0, 0, 1, 6, 0, 0, 1],
        ),
        example(
            "a started element ends the schema",
            false,
            started,
            (0, 6),
            [0, 3, 2, 0, 0, 1, 6, 0, 0, 0],
        ),
        example(
            "one without a type is counted too",
            true,
            typeless,
            (0, 4),
            [0, 3, 2, 1, 0, 1, 4, 1, 0, 1],
        ),
        example(
            "a second schema",
            true,
            again,
            (0, 6),
            [0, 4, 4, 1, 0, 1, 6, 1, 0, 1],
        ),
        example(
            "a type leads back to nesting 0",
            true,
            kind,
            (0, 8),
            [0, 4, 3, 1, 0, 1, 8, 1, 0, 1],
        ),
        example(
            "an empty schema",
            true,
            empty,
            (0, 2),
            [0, 2, 0, 0, 0, 1, 2, 0, 0, 1],
        ),
        example("nothing", true, "", (0, 0), [0, 2, 0, 0, 0, 0, 0, 0, 0, 1]),
    ]
}

/// The deepest nesting.
fn deep() -> Vec<Example> {
    let starts = |count: usize| format!("<schema>{}", "<x>".repeat(count));
    let closes = |count: usize| format!("{}{}", starts(254), "</>".repeat(count));
    let row0 = |context, nesting, events, open| [0, 2, 0, context, nesting, 1, events, open, 0, 1];
    vec![
        example(
            "254 tags below the schema",
            true,
            &starts(254),
            (0, 255),
            row0(1, 254, 255, 255),
        ),
        example(
            "7 for one more",
            true,
            &starts(255),
            (7, 255),
            row0(1, 254, 255, 255),
        ),
        example(
            "254 closes",
            true,
            &closes(254),
            (0, 509),
            row0(1, 0, 509, 1),
        ),
        example(
            "the close of the schema",
            true,
            &closes(255),
            (0, 510),
            row0(0, 0, 510, 0),
        ),
        example(
            "6 for one more",
            true,
            &closes(256),
            (6, 510),
            row0(0, 0, 510, 0),
        ),
    ]
}

/// Numbers 4, 7 and 9 of row 0 in context 1, and whether the sheet is good: "open tags of at least nesting + 1".
pub const HEADERS: [(u32, u32, u32, bool); 22] = [
    (0, 1, 1, true),
    (3, 4, 1, true),
    (254, 255, 1, true),
    (0, 255, 1, true),
    (3, 200, 1, true),
    (0, 0, 1, false),
    (1, 1, 1, false),
    (255, 255, 1, false),
    (254, 254, 1, false),
    (u32::MAX, 0, 1, false),
    (u32::MAX, 255, 1, false),
    (0, 256, 1, false),
    (0, 1, 0, true),
    (0, 255, 0, true),
    (0, 0, 0, false),
    (1, 2, 0, false),
    (3, 200, 0, false),
    (u32::MAX, 255, 0, false),
    (0, 1, 2, false),
    (1, 2, 2, false),
    (0, 1, u32::MAX, false),
    (0, 0, 2, false),
];

/// The sheet of these numbers of row 0 in context 1, with no heads.
pub fn header((nesting, open_tags, choice, _): (u32, u32, u32, bool)) -> Sheet {
    let mut sheet = blank_by(40, 5, false);
    sheet.rows[..10].copy_from_slice(&[0, 2, 0, 1, nesting, 1, 0, open_tags, 0, choice]);
    sheet
}

/// A state by the standard that no reading need reach: in context 1 with any nesting.
pub fn random_state_by_standard(random: &mut Random) -> State {
    let mut state = random_state(random);
    state.by_standard = true;
    if state.context == 1 {
        state.nesting = random.below(5) as u32;
        state.open_tags += state.nesting;
    }
    state
}

fn read_case(shows: impl Into<String>, sheet: Sheet, tape: Tape) -> Case {
    Case {
        group: "by the standard",
        shows: shows.into(),
        call: Call::Read(sheet, tape),
    }
}

/// All cases of the choice 1.
pub(crate) fn cases(seed: u64) -> Vec<Case> {
    let lists = [
        written(),
        headers(),
        cleared(),
        random_tapes(seed),
        random_states(seed),
    ];
    lists.into_iter().flatten().collect()
}

fn written() -> Vec<Case> {
    let by = |example: &Example| if example.by_standard { 1 } else { 0 };
    let case = |example: Example| {
        let shows = format!("{}, choice {}", example.shows, by(&example));
        read_case(shows, example.sheet, example.tape)
    };
    // The deepest ones are long, and the code is compared on them.
    let short = examples()
        .into_iter()
        .filter(|example| example.tape.marks.len() < 400);
    short.map(case).collect()
}

fn headers() -> Vec<Case> {
    let close = || Tape::of(&events("</>"));
    let case = |given: (u32, u32, u32, bool)| {
        let shows = format!("nesting {}, {} open, choice {}", given.0, given.1, given.2);
        read_case(shows, header(given), close())
    };
    HEADERS.into_iter().map(case).collect()
}

/// Clearing with every choice, alone and with bad lengths; a cleared sheet with 2 in it.
fn cleared() -> Vec<Case> {
    let mut all = Vec::new();
    for choice in [0, 1, 2, u32::MAX] {
        for rows in [19, 20, 40, 40_970] {
            let sheet = Sheet {
                rows: vec![7; rows],
                names: vec![9; 3],
            };
            all.push(Case {
                group: "by the standard",
                shows: format!("clear {rows} numbers with {choice}"),
                call: Call::Clear(sheet, choice),
            });
        }
    }
    let mut two = blank_by(40, 5, false);
    two.rows[9] = 2;
    all.push(read_case(
        "a cleared sheet with 2",
        two,
        Tape::of(&events("<schema>")),
    ));
    all
}

fn random_tapes(seed: u64) -> Vec<Case> {
    let mut random = generator(SEED, seed);
    let case = |index: usize| {
        let events = match index % 3 {
            0 => messed(&mut random),
            _ => document(&mut random),
        };
        let sheet = roomy_by(&events, true);
        read_case(format!("walk {index}"), sheet, Tape::of(&events))
    };
    (0..80).map(case).collect()
}

fn random_states(seed: u64) -> Vec<Case> {
    let mut random = generator(SEED + 1, seed);
    let case = |index: usize| {
        let state = random_state_by_standard(&mut random);
        let lent = Lent {
            rows: 40 + 10 * state.rows.len(),
            names: 10 + names_used(&state.rows),
        };
        let count = 3 + random.below(4);
        let tape = Tape::of(&odd_events(&mut random, count));
        read_case(format!("state {index}"), state.sheet(lent), tape)
    };
    (0..40).map(case).collect()
}

/// What an example's sheet must say of its heads: tag and name, in order.
pub fn heads(state: &State) -> Vec<(u32, &str, u32)> {
    let heads = state.rows.iter().filter(|row| row.is_head());
    heads
        .map(|row| (row.tag, row.texts[0].as_str(), row.c))
        .collect()
}
