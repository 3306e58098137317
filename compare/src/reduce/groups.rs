//! The graphs that are compared: number, place, every number and byte of the target, by the library and by the model.

use std::fs;
use std::io;
use std::path::Path;

use super::call;
use super::graphs::{
    chain, exact, front, random, sheet_of, with_references, KINDS, LARGEST, NAMES, ROOTS,
};
use super::model::{by_passes, by_queue, form_number, reduced};
use crate::cases::schemas_under;
use crate::crowded;
use crate::events::{events_of_xml, pieces};
use crate::grapher;
use crate::paper::agree::ROOMY;
use crate::paper::answer;
use crate::paper::lowering::Lowered;
use crate::paper::sheet::{Lent, Row, Sheet};
use crate::paper::state::State;
use crate::random::Random;
use crate::reader;
use crate::tally::Tally;
use crate::tapes::accented::{move_boundary, Accents};

const SEED: u64 = 0x7265_6475_6365;

/// How many random graphs are tried, and how many of them with every number changed.
const RANDOM: usize = 60_000;
const CHANGED: usize = 60;
/// How many have accented letters.
const ACCENTED: usize = 30_000;

/// The comparisons of one group.
struct Compared {
    calls: Tally,
    models: Tally,
    forms: Tally,
}

impl Compared {
    fn new(group: &'static str) -> Compared {
        Compared {
            calls: Tally::new(group),
            models: Tally::new("chains by repeated passes and by a queue, and reducing twice"),
            forms: Tally::new("the form of the same graphs"),
        }
    }

    /// A graph into a target that holds other numbers before; by repeated passes too where `both`.
    fn graph(&mut self, source: &Sheet, lent: Lent, both: bool) {
        let before = Sheet {
            rows: (0..lent.rows as u32).map(|k| k ^ 0x5555).collect(),
            names: (0..lent.names).map(|k| k as u8 | 1).collect(),
        };
        let mut target = before.clone();
        let given = call::reduce(source, &mut target);
        let expected = reduced(source, &before, by_queue);
        self.calls.given(given.number);
        self.calls
            .count(same(source, lent, &expected, &(given, target.clone())));
        if both {
            let passes = reduced(source, &before, by_passes);
            self.models.count(same(source, lent, &passes, &expected));
        }
        if given.number == 0 && lent != LARGEST {
            let mut again = before;
            let twice = call::reduce(&target, &mut again);
            let once = (given, target);
            self.models
                .count(same(source, lent, &once, &(twice, again)));
        }
    }

    /// The form of a graph, by its own call.
    fn form(&mut self, source: &Sheet) {
        let (expected, given) = (form_number(source), call::form(source));
        self.forms.given(given.number);
        self.forms
            .compare("lubiksan_graph_form", source, expected, given);
    }

    /// The rows in each room: what the reduced graph takes, one row or one byte less, as much as the graph.
    fn rooms(&mut self, rows: &[Row], both: bool) {
        let source = sheet_of(rows, exact(rows));
        self.form(&source);
        self.in_rooms(&source, both);
    }

    fn in_rooms(&mut self, source: &Sheet, both: bool) {
        let whole = source.lent();
        let (taken, target) = reduced(source, source, by_queue);
        let used = Lent {
            rows: 10 * taken.place.max(2) as usize,
            names: target.rows.get(2).map_or(0, |&n| n as usize),
        };
        let fewer = [
            Lent {
                rows: used.rows - 10,
                ..used
            },
            Lent {
                names: used.names.saturating_sub(1),
                ..used
            },
        ];
        self.graph(source, used, both);
        for lent in fewer {
            self.graph(source, lent, false);
        }
        if whole != used {
            self.graph(source, whole, false);
        }
    }

    fn tallies(self) -> Vec<Tally> {
        [self.calls, self.models, self.forms].into()
    }
}

fn same<A: PartialEq + std::fmt::Debug>(
    source: &Sheet,
    lent: Lent,
    expected: &A,
    given: &A,
) -> Result<(), String> {
    match expected == given {
        true => Ok(()),
        false => {
            let shown = |it: &A| format!("{it:?}").chars().take(2_000).collect::<String>();
            let source = format!("{source:?}")
                .chars()
                .take(2_000)
                .collect::<String>();
            Err(format!(
                "{source} into {lent:?}: {} is expected, {} is given",
                shown(expected),
                shown(given)
            ))
        }
    }
}

/// Every graph of up to three types with two references each, to each of them, elsewhere or built in, and every set of roots; of up to two
/// types with every kind.
pub fn small() -> Vec<Tally> {
    let mut compared = Compared::new("every graph of up to three types, in four rooms");
    let names = ["A", "B", "C"];
    let targets = [Some("A"), Some("B"), Some("C"), Some("Z"), None];
    let two = |k: usize| [targets[k % 5], targets[k / 5 % 5]];
    for count in 0..=3_u32 {
        for k in 0..8 * 25_usize.pow(count) {
            let (root, to) = (k % 8, k / 8);
            let roots: Vec<&str> = (0..3)
                .filter(|i| root >> i & 1 == 1)
                .map(|i| names[i])
                .collect();
            // Of three types one choice of kinds for each choice of references.
            let kinds = match count {
                3 => to..to + 1,
                _ => 0..KINDS.pow(count),
            };
            for kind in kinds {
                let mut rows = front(&roots);
                for i in 0..count {
                    let to = two(to / 25_usize.pow(i));
                    let kind = kind / KINDS.pow(i);
                    rows.extend(with_references(kind, names[i as usize], to));
                }
                compared.rooms(&rows, true);
            }
        }
    }
    compared.tallies()
}

/// Every name of a root, two types and a reference, of pools that meet by normalising.
pub fn spelled() -> Vec<Tally> {
    let mut compared = Compared::new("names that meet by normalising, in the room of the graph");
    for root in ROOTS {
        for first in NAMES {
            for to in NAMES {
                for second in NAMES {
                    let mut rows = front(&[root, "nowhere"]);
                    rows.extend(with_references(first.len(), first, [Some(to), None]));
                    rows.extend(with_references(to.len(), second, [Some("A"), None]));
                    let source = sheet_of(&rows, exact(&rows));
                    compared.graph(&source, exact(&rows), true);
                }
            }
        }
    }
    compared.tallies()
}

/// Random graphs of all kinds of types, in each room, and in the largest.
pub fn any() -> Vec<Tally> {
    let mut compared = Compared::new("random graphs, in four rooms and the largest");
    let mut numbers = Random::new(SEED);
    for k in 0..RANDOM {
        let rows = random(&mut numbers);
        compared.rooms(&rows, true);
        if k % 50 == 0 {
            compared.graph(&sheet_of(&rows, LARGEST), LARGEST, false);
        }
    }
    compared.tallies()
}

/// Random graphs with accented letters and the three characters that case brings in; every other one with one byte changed, or the end
/// of a pair moved by one byte.
pub fn accented() -> Vec<Tally> {
    let mut compared = Compared::new("random graphs with accented letters, half of them damaged");
    let mut numbers = Random::new(SEED + 3);
    for k in 0..ACCENTED {
        let rows = Accents::of_graph(&mut numbers).rows(&random(&mut numbers));
        compared.rooms(&rows, true);
        let mut damaged = sheet_of(&rows, exact(&rows));
        if k % 2 == 0 && !damaged.names.is_empty() {
            let at = numbers.below(damaged.names.len());
            damaged.names[at] = 0x80 | numbers.below(128) as u8;
        } else {
            move_boundary(&mut damaged.rows, &rows, &mut numbers);
        }
        compared.form(&damaged);
        compared.graph(&damaged, exact(&rows), false);
    }
    compared.tallies()
}

/// What is put in the place of a number.
const PUT: [u32; 26] = [
    0,
    1,
    2,
    3,
    4,
    5,
    6,
    7,
    8,
    9,
    10,
    11,
    12,
    13,
    14,
    15,
    16,
    17,
    18,
    19,
    20,
    127,
    128,
    65_536,
    0x8000_0000,
    u32::MAX,
];

/// Graphs with every number changed to each of 28, and every byte: most are no graphs any more.
pub fn changed() -> Vec<Tally> {
    let mut compared = Compared::new("graphs with one number or one byte changed");
    let mut numbers = Random::new(SEED + 1);
    for _ in 0..CHANGED {
        let rows = random(&mut numbers);
        let room = Lent {
            rows: exact(&rows).rows + 10,
            names: exact(&rows).names + 2,
        };
        let good = sheet_of(&rows, room);
        for at in 0..good.rows.len() {
            let old = good.rows[at];
            for new in PUT
                .into_iter()
                .chain([old.wrapping_add(1), old.wrapping_sub(1)])
            {
                let mut source = good.clone();
                source.rows[at] = new;
                compared.form(&source);
                compared.graph(&source, room, false);
            }
        }
        for at in 0..good.names.len() {
            for new in [0, 1, b'A', b'Z', 127, 128, 255] {
                let mut source = good.clone();
                source.names[at] = new;
                compared.form(&source);
                compared.graph(&source, room, false);
            }
        }
    }
    compared.tallies()
}

/// Graphs with rows in a wrong order and counts that are right: one row taken out, put elsewhere, doubled, or one of another tag put in.
pub fn ordered() -> Vec<Tally> {
    let mut compared = Compared::new("graphs with one row moved, doubled, taken out or put in");
    let mut numbers = Random::new(SEED + 2);
    for _ in 0..CHANGED {
        let rows = random(&mut numbers);
        let mut tried = Vec::new();
        for from in 0..rows.len() {
            let mut without = rows.clone();
            let row = without.remove(from);
            for to in 0..=without.len() {
                let mut moved = without.clone();
                moved.insert(to, row.clone());
                tried.push(moved);
            }
            tried.push(without);
        }
        for at in 0..=rows.len() {
            tried.extend((1..=19).map(|tag| {
                let mut with = rows.clone();
                with.insert(at, row_of(tag));
                with
            }));
        }
        for rows in tried {
            let source = sheet_of(&rows, exact(&rows));
            compared.form(&source);
            compared.graph(&source, exact(&rows), false);
        }
    }
    compared.tallies()
}

/// A row of a tag with numbers and pairs as the form asks for.
fn row_of(tag: u32) -> Row {
    match tag {
        5 => Row::new(tag, &["New"]).with(1, 0),
        12 | 13 | 16 | 17 => Row::new(tag, &[]),
        2 | 18 => Row::new(tag, &["A", "A"]),
        7 => Row::new(tag, &["New", "A"]),
        9 | 10 | 19 => Row::new(tag, &["A", "A", "A"]),
        _ => Row::new(tag, &["New"]),
    }
}

/// Lengths of the graph and of the target at, below and above each limit.
pub fn lengths() -> Vec<Tally> {
    let mut compared = Compared::new("lengths beside the limits");
    let rows: Vec<usize> = (0..=41).chain(40_949..=40_971).collect();
    let names = [0, 1, 5, 65_535, 65_536, 65_537];
    let good = sheet_of(&front(&["A"]), LARGEST);
    for &rows in &rows {
        for names in names {
            let lent = Lent { rows, names };
            compared.graph(&good, lent, false);
            let mut source = good.clone();
            source.rows.resize(rows, 0);
            source.names.resize(names, 0);
            compared.form(&source);
            compared.graph(&source, LARGEST, false);
        }
    }
    compared.tallies()
}

/// The largest graphs: chains forwards and backwards, circles, types that nothing reaches, types of one name, names to the last byte.
pub fn largest() -> Vec<Tally> {
    let mut compared =
        Compared::new("chains of up to 2,046 types, and up to 4,093 types without children");
    for count in [1, 2, 100, 1_000, 2_045, 2_046] {
        for backwards in [false, true] {
            let mut rows = chain(count, backwards);
            compared.rooms(&rows, count <= 100);
            // A circle, then one that no root leads to, then two types of one name.
            let last = format!("T{}", count);
            let close = |row: &mut Row| {
                if row.texts.last() == Some(&last) {
                    row.texts[2] = "T0".to_owned();
                }
            };
            rows.iter_mut().for_each(close);
            compared.rooms(&rows, count <= 100);
            rows[1].texts[1] = "elsewhere".to_owned();
            compared.rooms(&rows, true);
            let other = rows.len() - 2;
            rows[other].texts[0] = rows[2].texts[0].clone();
            compared.rooms(&rows, true);
        }
    }
    heads(&mut compared);
    compared.tallies()
}

/// Types without children, as many as there is room for; names to the last byte and past it.
fn heads(compared: &mut Compared) {
    for count in [4_092, 4_093] {
        let types = |k: usize| Row::new(3 + (k % 2) as u32, &[&format!("N{k}")]);
        let rows: Vec<Row> = front(&["N7"])
            .into_iter()
            .chain((0..count).map(types))
            .collect();
        compared.rooms(&rows, true);
    }
    for length in [65_529, 65_530, 65_531] {
        let mut rows = front(&["A"]);
        rows.push(Row::new(3, &["A"]));
        rows.push(Row::new(9, &["x", &"y".repeat(length), "B"]));
        compared.rooms(&rows, true);
    }
}

/// Types whose names all stand in one bucket of the index, around the number from which it is kept in order, in three orders; other types before, between or
/// behind them; references to the next one and to a name of that bucket which no type has; one name twice, before and behind that number.
pub fn crowded() -> Vec<Tally> {
    let mut compared = Compared::new("types of one bucket, in three orders, with one name twice");
    for count in [15, 16, 17, 18, 40, 600] {
        let mut names = crowded::crowded(count + 1);
        let absent = names.pop().unwrap_or_default();
        for order in 0..3 {
            match order {
                0 => {}
                1 => names.sort(),
                _ => names.reverse(),
            }
            // With three others behind each, 600 types have more rows than a graph.
            for &others in [0, 1, 3].iter().take(if count == 600 { 2 } else { 3 }) {
                crowd(&mut compared, &names, &absent, others);
            }
        }
    }
    compared.tallies()
}

/// Each type leads to the next one and to a name that no type has, or to the first; between two of them `others` of other names. Then two have one name.
fn crowd(compared: &mut Compared, names: &[String], absent: &str, others: usize) {
    let rows = |names: &[String]| {
        let types = (0..names.len()).flat_map(|at| {
            let next = names.get(at + 1).map_or(absent, |name| name);
            let to = [Some(next), Some([absent, &names[0]][at % 2])];
            let other = |k| with_references(k, &format!("Other{at}To{k}"), [Some(next), None]);
            let own = with_references(at, &names[at], to);
            [own, (0..others).flat_map(other).collect()].concat()
        });
        let roots = [
            names[0].as_str(),
            &crowded::parted(&names[names.len() / 2]),
            absent,
        ];
        [front(&roots), types.collect()].concat()
    };
    let both = names.len() <= 40;
    compared.rooms(&rows(names), both);
    let last = names.len() - 1;
    for (first, second) in [
        (0, 1),
        (0, 14),
        (13, 14),
        (0, last),
        (15, 16),
        (16, 17),
        (last - 1, last),
    ] {
        if first < second && second <= last {
            let mut twice = names.to_vec();
            twice[second] = names[first].clone();
            compared.rooms(&rows(&twice), false);
        }
    }
}

/// The graphs of the schemas in `folder`, lowered by the library after each piece, in each room.
///
/// # Errors
///
/// Returns the error where a file or folder cannot be read.
pub fn schemas(folder: &Path) -> io::Result<Vec<Tally>> {
    let mut compared = Compared::new("the graphs of the schemas, in four rooms");
    for file in schemas_under(folder)? {
        let Ok(text) = fs::read_to_string(file) else {
            continue;
        };
        let events = events_of_xml(&text).map_err(io::Error::other)?;
        let mut sheet = State::cleared().sheet(ROOMY);
        for piece in &pieces(&events) {
            reader::read(&mut sheet, piece);
            let mut lowered = Lowered {
                answer: answer(0, 0),
                graph: Sheet {
                    rows: vec![0; LARGEST.rows],
                    names: vec![0; LARGEST.names],
                },
                scratch: vec![0; 4_096],
            };
            grapher::lower(&sheet, &mut lowered);
            compared.form(&lowered.graph);
            compared.in_rooms(&lowered.graph, true);
        }
    }
    Ok(compared.tallies())
}
