//! Order 5: the numbers of heads, worked out by hand, and good sheets with numbers that no reading leaves.

use super::call::Call;
use super::readings::roomy_by;
use super::standard::heads;
use super::Case;
use crate::paper::lowering::SCRATCH_LEAST;
use crate::paper::sheet::{names_used, Lent, Row, Sheet};
use crate::paper::state::State;
use crate::paper::{answer, Answer};
use crate::random::Random;
use crate::tape::{events, Tape};

/// Tag, name and c of a head.
pub type Head = (u32, &'static str, u32);

/// Events read into a sheet, and what must be answered and stand in the heads.
pub struct Example {
    pub shows: &'static str,
    pub sheet: Sheet,
    pub tape: Tape,
    pub answer: Answer,
    pub heads: Vec<Head>,
}

impl Example {
    /// The heads of a sheet are those of the example.
    pub fn is_in(&self, sheet: &Sheet) -> bool {
        State::of(sheet).is_some_and(|state| heads(&state) == self.heads)
    }
}

/// All of them.
pub fn examples() -> Vec<Example> {
    [cleared(), stored()].into_iter().flatten().collect()
}

/// Sheets cleared with a choice: all events are done when the tape ends.
fn cleared() -> Vec<Example> {
    let documented = "<schema targetNamespace=N><annotation><documentation></></><simpleType name=A><restriction base=string/></><element name=r type=A><annotation></></><simpleType name=B><restriction base=string/></></>";
    let passed = "<schema><element name=r><complexType></></><element name=b type=t/>";
    let contents = "<schema><complexType name=D><sequence></><choice></><any namespace=n/>";
    let closed = format!("{contents}</>");
    let value = "<schema><complexType name=V><simpleContent><extension base=b><attribute name=a type=t/></></></>";
    let of = |shows, by_standard, lines: &str, heads: &[Head]| {
        let list = events(lines);
        Example {
            shows,
            sheet: roomy_by(&list, by_standard),
            answer: answer(0, list.len() as u32),
            tape: Tape::of(&list),
            heads: heads.to_vec(),
        }
    };
    vec![
        of(
            "tags that are passed over count",
            true,
            documented,
            &[(3, "A", 5), (2, "r", 8), (3, "B", 12)],
        ),
        of("behind the end nothing is kept", false, documented, &[]),
        of("nameless types count", true, passed, &[(2, "b", 5)]),
        of(
            "content leaves the number",
            false,
            contents,
            &[(15, "D", 1)],
        ),
        of("the close leaves it", false, &closed, &[(15, "D", 1)]),
        of(
            "the close of a 16 leaves it",
            false,
            "<x/><schema><complexType name=D></>",
            &[(15, "D", 2)],
        ),
        of(
            "an open 16 has it",
            false,
            "<schema><complexType name=D>",
            &[(16, "D", 1)],
        ),
        of(
            "a base and an extension leave it",
            false,
            value,
            &[(14, "V", 1)],
        ),
        of(
            "a second base leaves it",
            false,
            "<schema><simpleType name=A><restriction base=b><restriction base=c/>",
            &[(3, "A", 1)],
        ),
        of(
            "a start and an empty element",
            true,
            "<schema><element name=a type=b></><element name=c type=d/>",
            &[(2, "a", 1), (2, "c", 3)],
        ),
    ]
}

/// The state of these rows behind row 1, in a schema or with the last one open.
fn state(context: u32, events: u32, rows: &[Row]) -> State {
    State {
        rows: [&[Row::new(1, &["u"])], rows].concat(),
        context,
        root_seen: true,
        events,
        open_tags: context.min(2),
        ..State::cleared()
    }
}

/// The state's sheet with room for three rows and ten bytes more.
fn sheet_of(state: &State) -> Sheet {
    state.sheet(Lent {
        rows: 40 + 10 * state.rows.len(),
        names: 10 + names_used(&state.rows),
    })
}

/// Sheets stored earlier, runs begun inside a schema, and the largest number.
fn stored() -> Vec<Example> {
    let of = |shows, state: State, lines, given: (u32, u32), heads: &[Head]| Example {
        shows,
        sheet: sheet_of(&state),
        tape: Tape::of(&events(lines)),
        answer: answer(given.0, given.1),
        heads: heads.to_vec(),
    };
    let open = state(3, 2, &[Row::new(16, &["T"])]);
    let older = state(
        1,
        9,
        &[
            Row::new(2, &["a", "b"]).named_by(7),
            Row::new(3, &["S", ""]).named_by(3),
        ],
    );
    let element = "<element name=b type=t/>";
    let two = "<element name=b type=t/><element name=d type=t/>";
    vec![
        of(
            "a zero stays while its type is read on",
            open,
            "<sequence></><any/></><element name=b type=t/>",
            (0, 5),
            &[(15, "T", 0), (2, "b", 6)],
        ),
        of(
            "event 0 of a run begun inside a schema",
            state(1, 0, &[]),
            two,
            (0, 2),
            &[(2, "b", 0), (2, "d", 1)],
        ),
        of(
            "with 40 events done",
            state(1, 40, &[]),
            element,
            (0, 1),
            &[(2, "b", 40)],
        ),
        of(
            "numbers stay and go on",
            older,
            element,
            (0, 1),
            &[(2, "a", 7), (3, "S", 3), (2, "b", 9)],
        ),
        of(
            "the largest number",
            state(1, 999_999, &[]),
            two,
            (8, 1),
            &[(2, "b", 999_999)],
        ),
    ]
}

/// Events done, c of an element and of a simple type, and whether the sheet is good.
pub const GOODS: [(u32, u32, u32, bool); 17] = [
    (9, 0, 0, true),
    (9, 0, 8, true),
    (9, 8, 0, true),
    (9, 5, 2, true),
    (9, 5, 5, true),
    (9, 1, 2, true),
    (9, 9, 0, false),
    (9, 0, 9, false),
    (9, 10, 0, false),
    (9, 3, u32::MAX, false),
    (1, 0, 0, true),
    (1, 0, 1, false),
    (0, 0, 0, true),
    (0, 1, 0, false),
    (0, 0, 1, false),
    (0, u32::MAX, 0, false),
    (1_000_000, 999_999, 999_999, true),
];

/// The sheet of these numbers.
pub fn numbered_sheet((events, first, second, _): (u32, u32, u32, bool)) -> Sheet {
    let heads = [
        Row::new(2, &["a", "b"]).named_by(first),
        Row::new(3, &["S", "string"]).named_by(second),
        Row::new(4, &["v"]),
    ];
    sheet_of(&state(1, events, &heads))
}

/// The state, its heads with numbers that are unknown, any, falling, equal, or some of them unknown.
pub fn with_numbers(mut state: State, random: &mut Random) -> State {
    let (way, below) = (random.below(5), state.events.max(1));
    let one = random.below(below as usize) as u32;
    let mut last = below;
    for row in state.rows.iter_mut().filter(|row| row.is_head()) {
        let any = random.below(below as usize) as u32;
        last = last.saturating_sub(1);
        row.c = match way {
            0 => 0,
            1 => any,
            2 => last,
            3 => one,
            _ => any * random.below(2) as u32,
        };
    }
    state
}

/// All cases of the numbers.
pub(crate) fn cases() -> Vec<Case> {
    let case = |shows: String, sheet, tape| Case {
        group: "numbers of events",
        shows,
        call: Call::Read(sheet, tape),
    };
    let written = examples()
        .into_iter()
        .map(|example| case(example.shows.to_owned(), example.sheet, example.tape));
    let goods = GOODS.into_iter().map(|given| {
        let (events, first, second, _) = given;
        let shows = format!("{events} events, c {first} and {second}");
        case(
            shows,
            numbered_sheet(given),
            Tape::of(&crate::tape::events("</>")),
        )
    });
    written.chain(goods).chain(lowered()).collect()
}

/// The sheets of the table lowered.
fn lowered() -> Vec<Case> {
    let lent = || Sheet {
        rows: vec![7; 60],
        names: vec![7; 20],
    };
    let case = |given: (u32, u32, u32, bool)| Case {
        group: "numbers of events",
        shows: format!("{} events, c {} and {}, lowered", given.0, given.1, given.2),
        call: Call::Lower(numbered_sheet(given), lent(), vec![7; SCRATCH_LEAST]),
    };
    GOODS.into_iter().map(case).collect()
}
