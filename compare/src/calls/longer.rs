//! Random documents: whole, in pieces, damaged, with accented letters, on sheets that no reading reaches and on damaged ones.

use super::check::{rooms, Checks};
use crate::definitions::readings::{cut, damage_one, damage_tape};
use crate::definitions::sheets::random_state;
use crate::paper::sheet::Lent;
use crate::paper::state::State;
use crate::random::Random;
use crate::tally::Tally;
use crate::tape::{Event, Tape};
use crate::tapes::accented::{move_boundary, Accents};
use crate::tapes::{document, messed, odd_events};

const SEED: u64 = 0x6c75_6269_6b10;

/// How many documents are read; how many sheets are damaged.
const DOCUMENTS: usize = 100_000;
const SHEETS: usize = 30_000;
/// How many of each have accented letters.
const ACCENTED: usize = 40_000;

/// Random documents from cleared sheets.
pub fn documents() -> Vec<Tally> {
    let mut checks = Checks::new(
        "random documents, in turn in five rooms, damaged, and in pieces",
        "their states with the Rust's handlers",
        "random documents with the Rust's parse_str",
    );
    let mut random = Random::new(SEED);
    for index in 0..DOCUMENTS {
        let events = random_events(&mut random, index);
        in_turn(&mut checks, &events, index, &mut random);
    }
    checks.tallies()
}

/// The same with accented letters in names and values.
pub fn accented() -> Vec<Tally> {
    let mut checks = Checks::new(
        "random documents with accented letters, in turn in five rooms, damaged, and in pieces",
        "their states with the Rust's handlers",
        "the same documents with the Rust's parse_str",
    );
    let mut random = Random::new(SEED + 2);
    for index in 0..ACCENTED {
        let accents = Accents::new(&mut random);
        let events = accents.events(&random_events(&mut random, index));
        in_turn(&mut checks, &events, index, &mut random);
    }
    checks.tallies()
}

/// The events whole, in pieces, damaged, or with shared texts.
fn in_turn(checks: &mut Checks, events: &[Event], index: usize, random: &mut Random) {
    let lent = room(&State::cleared(), events, index);
    match index % 4 {
        0 => checks.document(lent, events),
        1 => in_pieces(checks, events, lent, random),
        2 => damaged(checks, events, lent, index, random),
        _ => drop(checks.read(&State::cleared().sheet(lent), &Tape::shared(events))),
    }
}

/// One of the rooms, in turn.
fn room(start: &State, events: &[Event], index: usize) -> Lent {
    let rooms = rooms(start, events);
    rooms[index % rooms.len()]
}

/// Documents, changed ones, and documents with events of any words behind.
fn random_events(random: &mut Random, index: usize) -> Vec<Event> {
    match index % 3 {
        0 => messed(random),
        1 => document(random),
        _ => {
            let mut events = document(random);
            events.pop();
            events.extend(odd_events(random, 6));
            events
        }
    }
}

fn in_pieces(checks: &mut Checks, events: &[Event], lent: Lent, random: &mut Random) {
    let mut sheet = State::cleared().sheet(lent);
    for piece in cut(events, random) {
        sheet = checks.read(&sheet, &Tape::of(&piece));
    }
}

fn damaged(checks: &mut Checks, events: &[Event], lent: Lent, way: usize, random: &mut Random) {
    let mut tape = Tape::of(events);
    if !tape.marks.is_empty() {
        damage_tape(&mut tape, random, way / 4);
    }
    checks.read(&State::cleared().sheet(lent), &tape);
}

/// Good sheets that no reading need reach, and sheets with one number or one byte damaged, read on.
pub fn sheets() -> Vec<Tally> {
    let mut checks = Checks::new(
        "random good sheets and damaged ones, read on and cleared",
        "their states with the Rust's handlers",
        "no documents",
    );
    let mut random = Random::new(SEED + 1);
    for index in 0..SHEETS {
        let state = random_state(&mut random);
        let events = odd_events(&mut random, 1 + index % 8);
        let mut sheet = state.sheet(room(&state, &events, index));
        if index % 2 == 0 {
            damage_one(&mut sheet.rows, &mut random);
        }
        if index % 16 == 0 && !sheet.names.is_empty() {
            let at = random.below(sheet.names.len());
            sheet.names[at] = random.below(256) as u8;
        }
        checks.read(&sheet, &Tape::of(&events));
        checks.clear(&sheet, 0);
    }
    checks.tallies()
}

/// Good sheets with accented letters, every other one with one byte changed or the end of a pair moved by one byte, read on.
pub fn accented_sheets() -> Vec<Tally> {
    let mut checks = Checks::new(
        "random sheets with accented letters, half of them damaged, read on",
        "their states with the Rust's handlers",
        "no documents",
    );
    let mut random = Random::new(SEED + 3);
    for index in 0..ACCENTED {
        let plain = random_state(&mut random);
        let accents = Accents::new(&mut random);
        let rows = accents.rows(&plain.rows);
        let state = State { rows, ..plain };
        let events = accents.events(&odd_events(&mut random, 1 + index % 8));
        let mut sheet = state.sheet(room(&state, &events, index));
        match index % 4 {
            1 if !sheet.names.is_empty() => {
                let at = random.below(sheet.names.len());
                sheet.names[at] = random.below(256) as u8;
            }
            3 => move_boundary(&mut sheet.rows, &state.rows, &mut random),
            _ => {}
        }
        checks.read(&sheet, &Tape::of(&events));
    }
    checks.tallies()
}
