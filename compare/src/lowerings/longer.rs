//! Random schemas, with accented letters too, documents that were read, sheets that no reading reaches, and damaged ones.

use super::check::{Checks, Room};
use super::generate::schema;
use crate::definitions::readings::damage_one;
use crate::definitions::sheets::random_state;
use crate::paper::agree::ROOMY;
use crate::paper::sheet::{names_used, rows_used, Lent};
use crate::paper::state::State;
use crate::random::Random;
use crate::tally::Tally;
use crate::tape::Event;
use crate::tapes::accented::Accents;
use crate::tapes::{document, messed};

const SEED: u64 = 0x6c75_6269_6b20;

/// How many schemas, documents and sheets are lowered.
const SCHEMAS: usize = 72_000;
const DOCUMENTS: usize = 30_000;
const SHEETS: usize = 60_000;
const ACCENTED: usize = 30_000;

/// Random schemas of up to 14 types, under both choices, every other one without the types whose name came before.
pub fn schemas() -> Vec<Tally> {
    let mut checks = Checks::new(
        "random schemas, in seven rooms",
        "their graphs with the Rust's lower",
    );
    let mut random = Random::new(SEED);
    for index in 0..SCHEMAS {
        let mut state = schema(&mut random, 14);
        choose(&mut state, index);
        match index % 2 {
            0 => checks.in_rooms(&state),
            _ => checks.in_rooms(&state.without_repeated()),
        }
    }
    checks.tallies()
}

/// Random schemas with accented letters in names and values, every other one without the types whose name came before.
pub fn accented() -> Vec<Tally> {
    let mut checks = Checks::new(
        "random schemas with accented letters, in seven rooms",
        "their graphs with the Rust's lower",
    );
    let mut random = Random::new(SEED + 3);
    for index in 0..ACCENTED {
        let plain = schema(&mut random, 14);
        let rows = Accents::new(&mut random).rows(&plain.rows);
        let state = State { rows, ..plain };
        match index % 2 {
            0 => checks.in_rooms(&state),
            _ => checks.in_rooms(&state.without_repeated()),
        }
    }
    checks.tallies()
}

/// Every third state by the standard, in context 1 with any nesting. Lowering looks at neither.
fn choose(state: &mut State, index: usize) {
    state.by_standard = index.is_multiple_of(3);
    if state.by_standard && state.context == 1 {
        state.nesting = index as u32 % 5;
        state.open_tags += state.nesting;
    }
}

/// Random documents, read by the model.
pub fn documents() -> Vec<Tally> {
    let mut checks = Checks::new(
        "random documents, in seven rooms",
        "their graphs with the Rust's lower",
    );
    let mut random = Random::new(SEED + 1);
    for index in 0..DOCUMENTS {
        let events = match index % 3 {
            0 => messed(&mut random),
            _ => document(&mut random),
        };
        checks.in_rooms(&after(&events));
    }
    checks.tallies()
}

/// The state that the events up to the first refused one lead to.
fn after(events: &[Event]) -> State {
    let mut state = State::cleared();
    for event in events {
        match state.after(event, ROOMY) {
            Ok(next) => state = next,
            Err(_) => break,
        }
    }
    state
}

/// Good sheets that no reading need reach, and sheets with one number or one byte damaged.
pub fn sheets() -> Vec<Tally> {
    let mut checks = Checks::new(
        "random good sheets in seven rooms, and damaged ones",
        "their graphs with the Rust's lower",
    );
    let mut random = Random::new(SEED + 2);
    for index in 0..SHEETS {
        let state = random_state(&mut random);
        if index % 2 == 0 {
            checks.in_rooms(&state);
        }
        damaged(&mut checks, &state, &mut random, index);
    }
    checks.tallies()
}

/// The sheet of `state` with one number, or one byte of its names, changed, in the exact room and in a larger one.
fn damaged(checks: &mut Checks, state: &State, random: &mut Random, index: usize) {
    let mut sheet = state.sheet(Lent {
        rows: 10 * rows_used(&state.rows) + 10,
        names: names_used(&state.rows) + 2,
    });
    if index.is_multiple_of(4) {
        let at = random.below(sheet.names.len());
        sheet.names[at] = random.below(256) as u8;
    } else {
        damage_one(&mut sheet.rows, random);
    }
    let rooms = Room::exact(state).all();
    checks.lower(&sheet, rooms[0]);
    checks.lower(&sheet, rooms[5]);
}
