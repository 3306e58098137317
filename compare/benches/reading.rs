//! Benchmark of the reading call: the events of a schema through the unchanged handlers of the Rust and
//! through `lubiksan_read`, in one run; the time of one event on a sheet of 100 and of 4,000 rows; a
//! reading of nothing. Made by `.ci/archive`; run by
//! `cargo bench --features ours --bench reading -- SCHEMA..`.
//!
//! `-- once SCHEMA..` measures nothing: it reads each schema one time, for a count of instructions.
//! `-- once` reads nothing into a cleared sheet.

use std::env;
use std::error::Error;
use std::fs;
use std::hint::black_box;
use std::time::{Duration, Instant};

use compare::events::{events_of_xml, pieces, with_prepared};
use compare::paper::sheet::Sheet;
use compare::reader;
use compare::tape::{events, xml, Event, Tape};
use compare::xsd::parse_str;

const ROWS: usize = 40_960;
const NAMES: usize = 65_536;
const ROUNDS: usize = 501;
/// How many events are read at once where the time of one is wanted.
const EVENTS: usize = 64;

fn main() -> Result<(), Box<dyn Error>> {
    // cargo adds the word `--bench`.
    let files: Vec<String> = env::args()
        .skip(1)
        .filter(|word| word != "--bench")
        .collect();
    match files.split_first() {
        Some((first, rest)) if first == "once" => once(rest),
        _ => measure(&files),
    }
}

fn measure(files: &[String]) -> Result<(), Box<dyn Error>> {
    for file in files {
        Case::of(file)?.measure();
    }
    growth();
    empty_readings();
    Ok(())
}

/// Reads each schema one time; with no schema, nothing one time.
fn once(files: &[String]) -> Result<(), Box<dyn Error>> {
    let mut sheet = cleared();
    if files.is_empty() {
        black_box(reader::read(&mut sheet, &Tape::default()));
    }
    for file in files {
        let case = Case::of(file)?;
        reader::clear(&mut sheet, 0);
        let number = read_all(&mut sheet, &case.pieces);
        println!("{}, last number {number}", case.name);
    }
    Ok(())
}

/// The time that `run` takes; what it makes is dropped behind the time.
fn timed<A>(run: impl FnOnce() -> A) -> Duration {
    let start = Instant::now();
    let made = black_box(run());
    let time = start.elapsed();
    drop(made);
    time
}

fn median(mut times: Vec<Duration>) -> Duration {
    times.sort_unstable();
    times[times.len() / 2]
}

fn ratio(part: Duration, whole: Duration) -> f64 {
    part.as_secs_f64() / whole.as_secs_f64()
}

fn cleared() -> Sheet {
    let mut sheet = Sheet {
        rows: vec![0; ROWS],
        names: vec![0; NAMES],
    };
    assert_eq!(reader::clear(&mut sheet, 0).number, 0);
    sheet
}

/// Reads the pieces; gives the number of the last.
fn read_all(sheet: &mut Sheet, pieces: &[Tape]) -> u32 {
    let numbers = pieces.iter().map(|piece| reader::read(sheet, piece).number);
    numbers.last().unwrap_or(0)
}

/// A schema as each of the ways reads it.
struct Case {
    /// The file, with the count of events and pieces.
    name: String,
    xml: String,
    pieces: Vec<Tape>,
}

/// The ways that follow each other in a round.
#[derive(Default)]
struct Times {
    parse_str: Vec<Duration>,
    cutting: Vec<Duration>,
    cut: Vec<Duration>,
    clear: Vec<Duration>,
    read: Vec<Duration>,
}

impl Case {
    fn of(file: &str) -> Result<Case, Box<dyn Error>> {
        let events = events_of_xml(&fs::read_to_string(file)?)?;
        let pieces = pieces(&events);
        let short = file.rsplit('/').next().unwrap_or(file);
        Ok(Case {
            name: format!("{short}: {} events, {} pieces", events.len(), pieces.len()),
            xml: xml(&events).ok_or("the schema is outside the domain")?,
            pieces,
        })
    }

    fn measure(&self) {
        let mut sheet = cleared();
        let times = self.times(&mut sheet);
        println!(
            "{}, {} rows, {} bytes of names",
            self.name, sheet.rows[1], sheet.rows[2]
        );
        times.print();
    }

    fn times(&self, sheet: &mut Sheet) -> Times {
        let mut times = Times::default();
        with_prepared(&self.xml, |cutting| {
            cut::with_prepared(&self.xml, |cut| {
                let same = format!("{:?}", cutting.schema()) == format!("{:?}", cut.schema());
                assert!(same, "both adapters give one schema");
                for _ in 0..ROUNDS {
                    times.parse_str.push(timed(|| parse_str(&self.xml)));
                    times.cutting.push(timed(|| cutting.schema()));
                    times.cut.push(timed(|| cut.schema()));
                    times.clear.push(timed(|| reader::clear(sheet, 0)));
                    times.read.push(timed(|| read_all(sheet, &self.pieces)));
                }
            });
        });
        times
    }
}

impl Times {
    fn print(self) {
        let [parse_str, cutting, cut] = [self.parse_str, self.cutting, self.cut].map(median);
        let [clear, read] = [self.clear, self.read].map(median);
        let both = clear + read;
        println!("  the handlers on cut tags {cut:?}, lubiksan_read {read:?}");
        println!(
            "  lubiksan_read against the handlers on cut tags {:.2}; with lubiksan_clear ({clear:?}) {:.2}",
            ratio(read, cut),
            ratio(both, cut)
        );
        println!(
            "  the handlers that cut {cutting:?}, quick-xml and the handlers {parse_str:?}; lubiksan_clear and lubiksan_read against them {:.2}, {:.2}",
            ratio(both, cutting),
            ratio(both, parse_str)
        );
    }
}

/// What is read, and the events that are repeated.
const KINDS: [(&str, &str); 4] = [
    ("an unknown tag and its close", "<x></>"),
    ("a facet added", "<enumeration value=WXYZ/>"),
    ("a number added", "<minLength value=12/>"),
    (
        "the base of the open type set anew, all rows behind it",
        "<restriction base=longer/><restriction base=short/>",
    ),
];

fn growth() {
    for (shows, lines) in KINDS {
        let one = events(lines);
        let list: Vec<Event> = one.iter().cycle().take(EVENTS).cloned().collect();
        let [few, many] = [100, 4_000].map(|rows| per_event(&sheet_with(rows), &Tape::of(&list)));
        let times = ratio(many, few);
        println!("{shows}: {few:?} an event at 100 rows, {many:?} at 4,000, {times:.2} times");
    }
}

/// Readings of no event.
fn empty_readings() {
    let nothing = Tape::default();
    let time = |sheet: &Sheet| readings(sheet, &nothing).0;
    let [few, many] = [100, 4_000].map(|rows| time(&sheet_with(rows)));
    println!("a reading of no event, a sheet of the largest lengths: {few:?} at 100 rows, {many:?} at 4,000");
    println!("the same, the sheet cleared: {:?}", time(&cleared()));
}

/// A sheet with a simple type open, one enumeration a row.
fn sheet_with(rows: usize) -> Sheet {
    let mut list =
        events("<schema targetNamespace=u><simpleType name=A><restriction base=long></>");
    let facet = events("<enumeration value=ABCD/>");
    list.extend(facet.iter().cycle().take(rows - 3).cloned());
    let mut sheet = cleared();
    assert_eq!(read_all(&mut sheet, &pieces(&list)), 0);
    assert_eq!(sheet.rows[1] as usize, rows);
    sheet
}

/// The median times of reading nothing and of reading `tape` into a copy of `sheet`, in turn.
fn readings(sheet: &Sheet, tape: &Tape) -> (Duration, Duration) {
    let mut copy = sheet.clone();
    let mut once = |tape: &Tape| {
        copy.clone_from(sheet);
        timed(|| assert_eq!(reader::read(&mut copy, tape).number, 0))
    };
    let nothing = Tape::default();
    let round = |_| (once(&nothing), once(tape));
    let (none, all) = (0..ROUNDS).map(round).unzip();
    (median(none), median(all))
}

/// The time of one of the `EVENTS` events: that of reading them less that of reading none.
fn per_event(sheet: &Sheet, tape: &Tape) -> Duration {
    let (none, all) = readings(sheet, tape);
    all.saturating_sub(none) / EVENTS as u32
}
