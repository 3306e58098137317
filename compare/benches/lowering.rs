//! Benchmark of the lowering call: the unchanged `lower` of the Rust and `lubiksan_lower` on the same schema, in one run, medians; with buffers as long as
//! needed and, for information, of the largest lengths. Then the time for a type in a schema of 4,094 types against one of 100, by kinds of names; that of names
//! that all stand in one bucket; of a schema that is refused because its last type has the name of its first; and of one whose graph has 20 numbers.
//! Made by `.ci/archive`; run by
//! `cargo bench --features ours --bench lowering -- SCHEMA..`.

use std::env;
use std::fs;
use std::hint::black_box;
use std::time::{Duration, Instant};

use compare::events::{events_of_xml, pieces};
use compare::grapher;
use compare::ir::lower::lower;
use compare::lowerings::check::Room;
use compare::paper::agree::ROOMY;
use compare::paper::lowering::{Lowered, SCRATCH_LEAST};
use compare::paper::sheet::{names_used, rows_used, Lent, Row, Sheet};
use compare::paper::state::State;
use compare::reader;
use compare::xsd::types::Schema;

const ROUNDS: usize = 301;

fn main() {
    for file in env::args().skip(1).filter(|word| word != "--bench") {
        let text = fs::read_to_string(&file).expect("the schema can be read");
        let name = file.rsplit('/').next().unwrap_or(&file);
        compare(name, &read(&text), 0);
    }
    kind("", |at| format!("Type{at}Code"));
    kind(", named T_ and three letters", |at| {
        format!("T_{}", letters(at, 3))
    });
    kind(", named by one prefix of 12 and three letters", |at| {
        format!("PaymentGroup{}", letters(at, 3))
    });
    let colliding = colliding(4_094);
    kind(", of one fingerprint of 16 bits", |at| {
        colliding[at].clone()
    });
    compare(
        "4,094 types of one row, named so that all stand in one of the table's buckets",
        &one_row_types(one_bucket(4_094)),
        0,
    );
    let twice = |at: usize| format!("Type{}Code", at % 4_093);
    compare(
        "4,094 types of one row, the last with the name of the first, refused with 20",
        &one_row_types((0..4_094).map(twice)),
        20,
    );
    smallest(&one_row_types((0..4_094).map(|at| format!("Type{at}Code"))));
}

/// The schemas of 100, 1,000 and 4,094 types whose names are of one kind.
fn kind(named: &str, name: impl Fn(usize) -> String) {
    let made = |count: usize| {
        compare(
            &format!("{count} types of one row{named}"),
            &one_row_types((0..count).map(&name)),
            0,
        )
    };
    let [few, _, many] = [100, 1_000, 4_094].map(made);
    let each = |time: Duration, count: u32| time.as_secs_f64() * 1e9 / f64::from(count);
    let (few, many) = (each(few, 100), each(many, 4_094));
    println!(
        "a type of one row{named}: {few:.1} ns at 100 types, {many:.1} ns at 4,094: {:.2} times",
        many / few
    );
}

/// So many letters, which differ from number to number.
fn letters(number: usize, count: u32) -> String {
    (0..count)
        .map(|place| char::from(b'a' + (number / 26_usize.pow(place) % 26) as u8))
        .collect()
}

/// So many names of 8 letters for which `h * 60493 + byte` modulo 65536, over their bytes, is 0: of each first half, with the second halves that fit.
fn colliding(count: usize) -> Vec<String> {
    let print = |name: &str| {
        name.bytes()
            .fold(0_u32, |h, byte| (h * 60_493 + u32::from(byte)) % 65_536)
    };
    let mut halves = vec![Vec::new(); 65_536];
    for half in (0..26_usize.pow(4)).map(|at| letters(at, 4)) {
        halves[print(&half) as usize].push(half);
    }
    let with_first = |first: String| {
        let wanted = (65_536 - print(&format!("{first}\0\0\0\0"))) % 65_536;
        let name = move |second: &String| format!("{first}{second}");
        halves[wanted as usize]
            .iter()
            .map(name)
            .collect::<Vec<String>>()
    };
    let names = (0..).map(|at| letters(at, 4)).flat_map(with_first);
    names.take(count).collect()
}

/// So many names whose hash, `(h + byte) * 2654435761` in 32 bits, over their bytes, stands in one of 16,384 buckets: so many the table has for 4,096 rows.
fn one_bucket(count: usize) -> Vec<String> {
    let bucket = |name: &String| {
        let hash = |h: u32, byte: u8| h.wrapping_add(u32::from(byte)).wrapping_mul(2_654_435_761);
        name.bytes().fold(0, hash) >> 18
    };
    (0..)
        .map(|at| letters(at, 8))
        .filter(|name| bucket(name) == 0)
        .take(count)
        .collect()
}

/// The time of a lowering into a graph of 20 numbers, which is too small: all names are looked at all the same.
fn smallest(state: &State) {
    let needed = Lent {
        rows: 10 * rows_used(&state.rows),
        names: names_used(&state.rows),
    };
    let room = Room {
        rows: 20,
        names: 0,
        scratch: SCRATCH_LEAST,
    };
    let mut lendings = Lendings::new(state, needed, room);
    assert_eq!(lendings.lower(), 15);
    let times = (0..31).map(|_| timed(|| lendings.lower())).collect();
    println!(
        "{} finished types into a graph of 20 numbers, refused with 15: {} us",
        state.finished_types(),
        median(times).as_micros()
    );
}

/// The state that the schema in `text` leads to, read by the library.
fn read(text: &str) -> State {
    let events = events_of_xml(text).expect("the schema is XML");
    let mut sheet = State::cleared().sheet(ROOMY);
    for piece in &pieces(&events) {
        assert_eq!(reader::read(&mut sheet, piece).number, 0);
    }
    State::of(&sheet).expect("a reading leaves a good sheet")
}

/// A schema of opaque types with these names.
fn one_row_types(names: impl IntoIterator<Item = String>) -> State {
    let mut rows = vec![Row::new(1, &["urn:x"])];
    rows.extend(names.into_iter().map(|name| Row::new(15, &[&name])));
    State {
        rows,
        root_seen: true,
        ..State::cleared()
    }
}

/// The time that `run` takes.
fn timed<A>(run: impl FnOnce() -> A) -> Duration {
    let start = Instant::now();
    black_box(run());
    start.elapsed()
}

fn median(mut times: Vec<Duration>) -> Duration {
    times.sort_unstable();
    times[times.len() / 2]
}

/// What is lent to a call: the schema sheet, and the buffers that it writes.
struct Lendings {
    sheet: Sheet,
    lowered: Lowered,
}

impl Lendings {
    fn new(state: &State, lent: Lent, room: Room) -> Lendings {
        Lendings {
            sheet: state.sheet(lent),
            lowered: room.lent(),
        }
    }

    fn lower(&mut self) -> u32 {
        grapher::lower(&self.sheet, &mut self.lowered);
        self.lowered.answer.number
    }
}

/// Prints the three medians of one schema, to which ours gives `number`; gives ours with buffers as long as needed.
fn compare(name: &str, state: &State, number: u32) -> Duration {
    let needed = Lent {
        rows: 10 * rows_used(&state.rows),
        names: names_used(&state.rows),
    };
    let largest = Room {
        rows: ROOMY.rows,
        names: ROOMY.names,
        scratch: 4_096,
    };
    let mut exact = Lendings::new(state, needed, Room::exact(state));
    let mut large = Lendings::new(state, ROOMY, largest);
    assert_eq!([exact.lower(), large.lower()], [number; 2], "{name}");
    let [rust, ours, ours_large] = medians(&state.schema(), &mut exact, &mut large);
    let ratio = |time: Duration| time.as_secs_f64() / rust.as_secs_f64();
    println!(
        "{name}: {} rows, {} finished types, graph of {} rows and {} bytes",
        rows_used(&state.rows),
        state.finished_types(),
        exact.lowered.graph.rows[1],
        exact.lowered.graph.rows[2]
    );
    println!(
        "  lower {} ns; lubiksan_lower {} ns, {:.2} of it; with buffers of the largest lengths {} ns, {:.2} of it",
        rust.as_nanos(),
        ours.as_nanos(),
        ratio(ours),
        ours_large.as_nanos(),
        ratio(ours_large)
    );
    ours
}

/// The medians of `lower`, of ours with buffers as long as needed, and of ours with the largest ones, in turn.
fn medians(schema: &Schema, exact: &mut Lendings, large: &mut Lendings) -> [Duration; 3] {
    let mut times = [Vec::new(), Vec::new(), Vec::new()];
    for _ in 0..ROUNDS {
        times[0].push(timed(|| lower(black_box(schema)).is_ok()));
        times[1].push(timed(|| exact.lower()));
        times[2].push(timed(|| large.lower()));
    }
    times.map(median)
}
