//! Benchmark of the schema written back, in one run, medians: `lubiksan_write`, which tests the sheet, against `lubiksan_tape` on the text that it
//! writes and against a plain writer in Rust over the same rows; the test of the sheet alone, by reading nothing. Made by `.ci/archive`;
//! run by `cargo bench --features ours --bench writing -- SCHEMA..`.
//!
//! The sheet has about the room that it needs and the text exactly, as a caller who knows the schema lends; then both have the largest lengths.

use std::env;
use std::error::Error;
use std::fs;
use std::hint::black_box;
use std::time::{Duration, Instant};

use compare::events::{events_of_xml, pieces};
use compare::paper::agree::ROOMY;
use compare::paper::sheet::{Lent, Sheet};
use compare::paper::state::State;
use compare::paper::xml::can_stand_in_quotes;
use compare::reader;
use compare::tape::Tape;
use compare::writes::write;

const TEXT: usize = 65_536;
const MARKS: usize = 16_384;
const ROUNDS: usize = 1_001;

fn main() -> Result<(), Box<dyn Error>> {
    // cargo adds the word `--bench`.
    for file in env::args().skip(1).filter(|word| word != "--bench") {
        let text = fs::read_to_string(&file)?;
        let mut sheet = State::cleared_by(true).sheet(ROOMY);
        for piece in pieces(&events_of_xml(&text)?) {
            reader::read(&mut sheet, &piece);
        }
        measure(file.rsplit('/').next().unwrap_or(&file), &sheet);
    }
    Ok(())
}

/// The time that `run` takes.
fn timed<A>(run: impl FnOnce() -> A) -> Duration {
    let start = Instant::now();
    black_box(run());
    start.elapsed()
}

fn median(mut times: Vec<Duration>) -> Duration {
    times.sort_unstable();
    times[times.len() / 2]
}

fn ratio(part: Duration, whole: Duration) -> f64 {
    part.as_secs_f64() / whole.as_secs_f64()
}

/// The sheet in another room, where it fits.
fn in_room(sheet: &Sheet, lent: Lent) -> Sheet {
    let (mut rows, mut names) = (sheet.rows.clone(), sheet.names.clone());
    rows.resize(lent.rows, 0);
    names.resize(lent.names, 0);
    Sheet { rows, names }
}

fn measure(name: &str, largest: &Sheet) {
    let about = Lent {
        rows: 10 * largest.rows[1] as usize,
        names: largest.rows[2] as usize,
    };
    let mut sheet = in_room(largest, about);
    let mut longest = vec![0; TEXT];
    let written = write(&sheet, &mut longest);
    if written.number != 0 {
        println!("{name}: {written:?}");
        return;
    }
    let mut text = longest[..written.place as usize].to_vec();
    let mut marks = vec![0; MARKS];
    let taped = reader::tape(&text, &mut marks);
    marks.truncate(if taped.number == 0 {
        taped.place as usize
    } else {
        MARKS
    });
    let mut plain = String::with_capacity(TEXT);
    let mut times: [Vec<Duration>; 5] = Default::default();
    for _ in 0..ROUNDS {
        times[0].push(timed(|| write(&sheet, &mut text)));
        times[1].push(timed(|| reader::tape(&text, &mut marks)));
        times[2].push(timed(|| put_schema(&sheet, &mut plain)));
        times[3].push(timed(|| reader::read(&mut sheet, &Tape::default())));
        times[4].push(timed(|| write(largest, &mut longest)));
    }
    let same = plain.as_bytes() == text;
    let [write, tape, plain, test, of_largest] = times.map(median);
    println!(
        "{name}: {} rows, {} bytes, tape {taped:?}, the plain writer's text is the same: {same}",
        about.rows / 10,
        text.len()
    );
    println!(
        "  lubiksan_write {write:?}; lubiksan_tape {tape:?}: {:.2} of it; a plain writer {plain:?}: {:.2} of it; the test alone {test:?}, without it {:.2}; the largest lengths {of_largest:?}",
        ratio(write, tape),
        ratio(write, plain),
        ratio(write.saturating_sub(test), plain)
    );
}

/// The text of a pair.
fn text_of<'s>(sheet: &'s Sheet, row: &[u32], column: usize) -> &'s str {
    let from = row[column] as usize;
    let bytes = &sheet.names[from..from + row[column + 1] as usize];
    std::str::from_utf8(bytes).unwrap_or_default()
}

/// No byte that has to be looked at, or else what the model says.
fn is_held(value: &str) -> bool {
    let odd = |byte: u8| byte < 32 || matches!(byte, b'<' | b'&' | b'"' | b'\'');
    !value.bytes().any(odd) || can_stand_in_quotes(value.as_bytes())
}

fn put_value(out: &mut String, key: &str, value: &str) {
    let quote = if value.contains('"') { "'" } else { "\"" };
    for part in [" ", key, "=", quote, value, quote] {
        out.push_str(part);
    }
}

fn put_number(out: &mut String, key: &str, number: u64) {
    put_value(out, key, &number.to_string());
}

const FACETS: [&str; 8] = [
    "enumeration",
    "pattern",
    "minLength",
    "maxLength",
    "minInclusive",
    "maxInclusive",
    "totalDigits",
    "fractionDigits",
];

/// A row with its first two texts, a and b.
struct Row<'s> {
    tag: u32,
    first: &'s str,
    second: &'s str,
    a: u64,
    b: u64,
}

/// A plain writer over a sheet that is good and whole: the values judged, then `String::push_str` row by row. False for a value that is not held.
fn put_schema(sheet: &Sheet, out: &mut String) -> bool {
    let used = 10 * sheet.rows[1] as usize;
    let rows = || {
        sheet.rows[10..used].chunks_exact(10).map(|row| Row {
            tag: row[0],
            first: text_of(sheet, row, 1),
            second: text_of(sheet, row, 3),
            a: row[7].into(),
            b: row[8].into(),
        })
    };
    if !rows().all(|row| is_held(row.first) && is_held(row.second)) {
        return false;
    }
    out.clear();
    let mut close = "";
    for row in rows() {
        match row.tag {
            1 => {
                out.push_str("<xs:schema xmlns:xs=\"http://www.w3.org/2001/XMLSchema\"");
                put_value(out, "targetNamespace", row.first);
                out.push('>');
            }
            4..=11 => put_facet(out, &row),
            17..=20 => put_child(out, &row),
            _ => {
                out.push_str(close);
                close = put_item(out, &row);
            }
        }
    }
    out.push_str(close);
    out.push_str("</xs:schema>");
    true
}

/// An element, or the start of a type; gives what closes it.
fn put_item(out: &mut String, row: &Row<'_>) -> &'static str {
    if row.tag == 2 {
        put_child(out, row);
        return "";
    }
    let (start, inside, close) = match row.tag {
        3 => (
            "<xs:simpleType",
            "><xs:restriction",
            "</xs:restriction></xs:simpleType>",
        ),
        14 => (
            "<xs:complexType",
            "><xs:simpleContent><xs:extension",
            "</xs:extension></xs:simpleContent></xs:complexType>",
        ),
        13 => (
            "<xs:complexType",
            "><xs:choice",
            "</xs:choice></xs:complexType>",
        ),
        _ => (
            "<xs:complexType",
            "><xs:sequence",
            "</xs:sequence></xs:complexType>",
        ),
    };
    out.push_str(start);
    put_value(out, "name", row.first);
    out.push_str(inside);
    if matches!(row.tag, 3 | 14) {
        put_value(out, "base", row.second);
    }
    out.push('>');
    if row.tag == 15 {
        out.push_str("<xs:any");
        if row.a == 1 {
            put_value(out, "namespace", row.second);
        }
        out.push_str("/>");
    }
    close
}

fn put_facet(out: &mut String, row: &Row<'_>) {
    out.push_str("<xs:");
    out.push_str(FACETS[row.tag as usize - 4]);
    match row.tag {
        6 | 7 | 10 | 11 => put_number(out, "value", row.a | row.b << 32),
        _ => put_value(out, "value", row.first),
    }
    out.push_str("/>");
}

/// An element or an attribute.
fn put_child(out: &mut String, row: &Row<'_>) {
    out.push_str(match row.tag {
        20 => "<xs:attribute",
        _ => "<xs:element",
    });
    put_value(out, "name", row.first);
    put_value(out, "type", row.second);
    match row.tag {
        17 => {
            put_number(out, "minOccurs", row.a);
            put_number(out, "maxOccurs", row.b);
        }
        18 => {
            put_number(out, "minOccurs", row.a);
            out.push_str(" maxOccurs=\"unbounded\"");
        }
        20 if row.a == 1 => out.push_str(" use=\"required\""),
        _ => {}
    }
    out.push_str("/>");
}
