//! Benchmark of the tape of a text, in one run, medians: `lubiksan_tape` against quick-xml's events with the
//! attributes of each tag cut; the way from text to graph (tape, clear, read, lower) against `parse_str` and
//! `lower`; the slowest texts. Made by `.ci/archive`; run by
//! `cargo bench --features ours --bench tape -- SCHEMA..`.
//!
//! A schema must be ASCII, up to 65,536 bytes long, and one that quick-xml reads; others are passed over.
//! `-- once SCHEMA..` measures nothing: it makes each tape one time, for a count of instructions.

use std::env;
use std::error::Error;
use std::fs;
use std::hint::black_box;
use std::time::{Duration, Instant};

use compare::grapher;
use compare::ir::lower::lower;
use compare::paper::answer;
use compare::paper::lowering::{Lowered, SCRATCH_LEAST};
use compare::paper::sheet::Sheet;
use compare::parsers::quick_xml_events;
use compare::reader;
use compare::tape::Tape;
use compare::texts::limits::keys;
use compare::xsd::parse_str;
use raw_xml::events::{BytesStart, Event};
use raw_xml::Reader;

const TEXT: usize = 65_536;
const MARKS: usize = 16_384;
const ROWS: usize = 40_960;
const ROUNDS: usize = 301;
/// How often a slowest text is read.
const SLOW_ROUNDS: usize = 11;

fn main() -> Result<(), Box<dyn Error>> {
    // cargo adds the word `--bench`.
    let files: Vec<String> = env::args()
        .skip(1)
        .filter(|word| word != "--bench")
        .collect();
    match files.split_first() {
        Some((first, rest)) if first == "once" => once(rest),
        _ => measure(&files),
    }
}

fn once(files: &[String]) -> Result<(), Box<dyn Error>> {
    let mut marks = vec![0; MARKS];
    for file in files {
        let text = fs::read(file)?;
        let answer = black_box(reader::tape(&text, &mut marks));
        println!("{file}: {} bytes, {answer:?}", text.len());
    }
    Ok(())
}

fn measure(files: &[String]) -> Result<(), Box<dyn Error>> {
    for file in files {
        let text = fs::read_to_string(file)?;
        if text.is_ascii() && text.len() <= TEXT && quick_xml_events(text.as_bytes()).is_ok() {
            schema(file.rsplit('/').next().unwrap_or(file), &text);
        }
    }
    slowest();
    Ok(())
}

/// The time that `run` takes; what it makes is dropped behind the time.
fn timed<A>(run: impl FnOnce() -> A) -> Duration {
    let start = Instant::now();
    let made = black_box(run());
    let time = start.elapsed();
    drop(made);
    time
}

fn median(mut times: Vec<Duration>) -> Duration {
    times.sort_unstable();
    times[times.len() / 2]
}

fn ratio(part: Duration, whole: Duration) -> f64 {
    part.as_secs_f64() / whole.as_secs_f64()
}

/// The keys and values of a tag; the bytes of all of them are counted, so that none is left out.
fn cut(tag: &BytesStart<'_>) -> usize {
    let attributes = tag
        .attributes()
        .map(|found| found.expect("the tag is good"));
    let lengths = attributes.map(|one| black_box(one.key.into_inner().len() + one.value.len()));
    lengths.sum::<usize>() + tag.name().into_inner().len()
}

/// quick-xml's events as parts of the text.
fn events_in_place(text: &str) -> usize {
    let mut reader = Reader::from_str(text);
    let mut sum = 0;
    loop {
        match reader.read_event().expect("the text is good") {
            Event::Start(tag) | Event::Empty(tag) => sum += cut(&tag),
            Event::Eof => return sum,
            _ => sum += 1,
        }
    }
}

/// quick-xml's events through a buffer, with the setting of `parse_str`.
fn events_copied(text: &str) -> usize {
    let mut reader = Reader::from_str(text);
    reader.config_mut().trim_text(true);
    let mut buffer = Vec::new();
    let mut sum = 0;
    loop {
        match reader
            .read_event_into(&mut buffer)
            .expect("the text is good")
        {
            Event::Start(tag) | Event::Empty(tag) => sum += cut(&tag),
            Event::Eof => return sum,
            _ => sum += 1,
        }
        buffer.clear();
    }
}

/// What is lent on the way from text to graph.
struct Lent {
    tape: Tape,
    marks: usize,
    sheet: Sheet,
    lowered: Lowered,
}

fn sheet(rows: usize, names: usize) -> Sheet {
    Sheet {
        rows: vec![0; rows],
        names: vec![0; names],
    }
}

impl Lent {
    fn new(text: &str, marks: usize, sheet: Sheet, graph: Sheet, scratch: usize) -> Lent {
        Lent {
            tape: Tape {
                text: text.as_bytes().to_vec(),
                marks: vec![0; marks],
            },
            marks,
            sheet,
            lowered: Lowered {
                answer: answer(0, 0),
                graph,
                scratch: vec![0; scratch],
            },
        }
    }

    /// Buffers of the largest lengths.
    fn largest(text: &str) -> Lent {
        let sheets = [(); 2].map(|()| sheet(ROWS, TEXT));
        let [sheet, graph] = sheets;
        Lent::new(text, MARKS, sheet, graph, 4_096)
    }

    /// Buffers about as long as this run of the largest ones needed: while a sheet is read it may need a row more
    /// than at the end.
    fn about(text: &str, used: &Lent) -> Lent {
        let about = |used: &Sheet| {
            let (rows, names) = (used.rows[1] as usize, used.names.len());
            let names = names.min(used.rows[2] as usize + 1_000);
            sheet(ROWS.min(10 * rows + 100), names)
        };
        let graph = &used.lowered.graph;
        let marks = used.tape.marks.len();
        Lent::new(text, marks, about(&used.sheet), about(graph), SCRATCH_LEAST)
    }

    /// Tape, clear, read, lower; the four numbers. The marks behind the tape are not lent to reading.
    fn graph(&mut self) -> [u32; 4] {
        let taped = self.tape();
        let cleared = self.clear();
        let read = self.read();
        let lowered = self.lower();
        [taped, cleared, read, lowered]
    }

    fn tape(&mut self) -> u32 {
        self.tape.marks.resize(self.marks, 0);
        let taped = reader::tape(&self.tape.text, &mut self.tape.marks);
        self.tape.marks.truncate(taped.place as usize);
        taped.number
    }

    fn clear(&mut self) -> u32 {
        reader::clear(&mut self.sheet, 0).number
    }

    fn read(&mut self) -> u32 {
        reader::read(&mut self.sheet, &self.tape).number
    }

    fn lower(&mut self) -> u32 {
        grapher::lower(&self.sheet, &mut self.lowered);
        self.lowered.answer.number
    }
}

fn schema(name: &str, text: &str) {
    let mut largest = Lent::largest(text);
    let numbers = largest.graph();
    let mut about = Lent::about(text, &largest);
    let same = numbers == about.graph();
    let mut marks = vec![0; MARKS];
    let mut times: [Vec<Duration>; 10] = Default::default();
    for _ in 0..ROUNDS {
        times[0].push(timed(|| reader::tape(text.as_bytes(), &mut marks)));
        times[1].push(timed(|| events_in_place(text)));
        times[2].push(timed(|| events_copied(text)));
        times[3].push(timed(|| about.graph()));
        times[4].push(timed(|| largest.graph()));
        times[5].push(timed(|| {
            parse_str(text).map(|schema| (lower(&schema), schema))
        }));
        times[6].push(timed(|| about.tape()));
        times[7].push(timed(|| about.clear()));
        times[8].push(timed(|| about.read()));
        times[9].push(timed(|| about.lower()));
    }
    let [tape, in_place, copied, about, largest, rust, parts @ ..] = times.map(median);
    let each = |time: Duration| time.as_secs_f64() * 1e9 / text.len() as f64;
    println!(
        "{name}: {} bytes; tape, clear, read, lower give {numbers:?} (in both rooms: {same})",
        text.len()
    );
    println!(
        "  lubiksan_tape {tape:?}, {:.2} ns a byte; quick-xml's events in place {in_place:?}, {:.2} ns: {:.2} of it; copied {copied:?}, {:.2} ns: {:.2} of it",
        each(tape),
        each(in_place),
        ratio(tape, in_place),
        each(copied),
        ratio(tape, copied)
    );
    println!(
        "  text to graph {about:?}; parse_str and lower {rust:?}: {:.2} of it; with buffers of the largest lengths {largest:?}: {:.2} of it",
        ratio(about, rust),
        ratio(largest, rust)
    );
    println!("  one by one, tape, clear, read, lower: {parts:?}");
}

/// Keys of `length` bytes that begin alike, as many as a text holds.
fn alike(length: usize) -> String {
    let count = (TEXT - 10) / (length + 4);
    let digits = length - 1;
    let key = |index: usize| format!(" k{index:0digits$x}=''");
    let keys: String = (0..count).map(key).collect();
    format!("<a{keys}/>")
}

/// The tag with as many different keys as a text holds, of up to three bytes.
fn most_keys() -> String {
    let counts: Vec<usize> = (0..TEXT / 5).collect();
    let fit = counts.partition_point(|&count| keys(count)[0].len() <= TEXT);
    let [text, _] = keys(fit.saturating_sub(1));
    text
}

/// As many different keys as a text holds; keys that begin alike.
fn slowest() {
    let texts = [
        ("as many different keys as a text holds", most_keys()),
        ("keys of 5 bytes that begin alike", alike(5)),
        ("keys of 6 bytes that begin alike", alike(6)),
        ("keys of 8 bytes that begin alike", alike(8)),
    ];
    let mut marks = vec![0; MARKS];
    for (name, text) in texts {
        let mut read = || reader::tape(text.as_bytes(), &mut marks).number;
        let number = read();
        let times: Vec<Duration> = (0..SLOW_ROUNDS).map(|_| timed(&mut read)).collect();
        let least = times.iter().min().copied().unwrap_or_default();
        let (bytes, count) = (text.len(), text.matches('=').count());
        println!(
            "{name}, {count} in {bytes} bytes: {:?}, the least {least:?}, number {number}",
            median(times)
        );
    }
}
