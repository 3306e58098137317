//! Types of one name: the worked examples, every short list, random sheets with few names.

use super::check::{sheet_of, Checks, Room};
use crate::definitions::repeated;
use crate::grapher;
use crate::paper::answer;
use crate::paper::lowering::Lowered;
use crate::paper::sheet::Row;
use crate::paper::state::State;
use crate::random::Random;
use crate::tally::Tally;

const SEED: u64 = 0x6c75_6269_6b24;

/// The longest list of the short ones.
const LONGEST: u32 = 5;

/// How many random sheets are lowered.
const SHEETS: usize = 60_000;

/// The worked examples, each with the answer worked out by hand.
pub fn examples() -> Vec<Tally> {
    let mut answers = Tally::new("worked examples of types of one name, number and place");
    let mut checks = Checks::new(
        "the same, with the model",
        "their graphs with the Rust's lower",
    );
    for example in repeated::examples() {
        let mut ours = Lowered {
            answer: answer(u32::MAX, u32::MAX),
            graph: example.graph.clone(),
            scratch: example.scratch.clone(),
        };
        grapher::lower(&example.sheet, &mut ours);
        answers.compare(
            "lubiksan_lower",
            &example.shows,
            example.answer,
            ours.answer,
        );
        checks.lower_into(&example.sheet, &example.graph, &example.scratch);
    }
    [vec![answers], checks.tallies()].concat()
}

/// Every short list, and random sheets with few names.
pub fn compare() -> Vec<Tally> {
    let mut checks = Checks::new("types of one name", "their graphs with the Rust's lower");
    short_lists(&mut checks);
    few_names(&mut checks);
    checks.tallies()
}

/// An element, simple types and complex ones of two names, and one that is refused.
fn alphabet() -> Vec<Vec<Row>> {
    vec![
        vec![Row::new(2, &["A", "A"])],
        vec![Row::new(3, &["A", "string"])],
        vec![Row::new(3, &["a_", "QName"])],
        vec![Row::new(3, &["B", "date"]), Row::new(4, &["X"])],
        vec![Row::new(15, &["_a"])],
        vec![Row::new(12, &["B_"]), Row::new(17, &["e", "A"]).with(1, 1)],
        vec![Row::new(13, &["C"])],
    ]
}

/// All lists of up to five of the alphabet, finished, and with the last one open where that is a type.
fn short_lists(checks: &mut Checks) {
    let alphabet = alphabet();
    for length in 0..=LONGEST {
        for number in 0..alphabet.len().pow(length) {
            let items = (0..length).map(|at| number / alphabet.len().pow(at) % alphabet.len());
            let heads: Vec<Vec<Row>> = items.map(|item| alphabet[item].clone()).collect();
            let last = heads.last().map_or(0, |rows| rows[0].tag);
            lowered(checks, &state(&heads, 1));
            match last {
                0 | 2 => {}
                3 => lowered(checks, &state(&heads, 2)),
                _ => lowered(checks, &state(&heads, 3)),
            }
        }
    }
}

/// The state of these heads in this context.
fn state(heads: &[Vec<Row>], context: u32) -> State {
    State {
        rows: [vec![Row::new(1, &["u"])], heads.concat()].concat(),
        context,
        root_seen: true,
        open_tags: context.min(2),
        ..State::cleared()
    }
}

/// The state lowered in the exact room, and in the smallest one with as much scratch.
fn lowered(checks: &mut Checks, state: &State) {
    let sheet = sheet_of(state);
    let rooms = Room::exact(state).all();
    checks.lower(&sheet, rooms[0]);
    checks.lower(&sheet, rooms[6]);
}

/// Random lists of up to 40 heads over few names, in every spelling that normalises to them.
fn few_names(checks: &mut Checks) {
    let mut random = Random::new(SEED);
    for _ in 0..SHEETS {
        let names = [1, 2, 5, 30, 400, 4_000][random.below(6)];
        let heads: Vec<Vec<Row>> = (0..random.below(40))
            .map(|_| head(&mut random, names))
            .collect();
        let context = match heads.last().map_or(0, |rows| rows[0].tag) {
            0 | 2 => random.below(2) as u32,
            3 => random.below(3) as u32,
            _ => [0, 1, 3][random.below(3)],
        };
        lowered(checks, &state(&heads, context));
    }
}

/// An element or a type with one of `names` names.
fn head(random: &mut Random, names: usize) -> Vec<Row> {
    let name = spelled(random, names);
    match random.below(12) {
        0 => vec![Row::new(2, &[&name, "A"])],
        1..=3 => vec![Row::new(3, &[&name, "string"])],
        4 | 5 => vec![
            Row::new(3, &[&name, "QName"]),
            Row::new(4, &["A"]),
            Row::new(4, &["B"]),
        ],
        6 if random.below(8) == 0 => vec![Row::new(3, &[&name, "QName"])],
        6 | 7 => vec![Row::new(15, &[&name])],
        8 => vec![Row::new(13, &[&name]), Row::new(19, &["v", &name])],
        9 => vec![Row::new(14, &[&name, "date"])],
        _ => vec![
            Row::new(12, &[&name]),
            Row::new(17, &["e", &name]).with(0, 1),
            Row::new(18, &["f", "t"]),
        ],
    }
}

/// A spelling of one of `names` names: `T7Code`, `T7_Code`, `t7_code`, `_T7Code`, `T7Code__`.
fn spelled(random: &mut Random, names: usize) -> String {
    let index = random.below(names);
    match random.below(5) {
        0 => format!("T{index}_Code"),
        1 => format!("t{index}_code"),
        2 => format!("_T{index}Code"),
        3 => format!("T{index}Code__"),
        _ => format!("T{index}Code"),
    }
}
