//! Order 7: the count of refused types. Every sheet on the way is tried with its count damaged, converted and read on. The judges are the
//! model, and the light itself: lowering gives 13 exactly if the count is above 0.

use super::check::{rooms, Checks};
use crate::definitions::readings::{cut, damage_one};
use crate::definitions::sheets::random_state;
use crate::grapher;
use crate::lowerings::check::{Checks as Lowerings, Room};
use crate::paper::sheet::{Lent, Sheet};
use crate::paper::state::State;
use crate::random::Random;
use crate::reader;
use crate::tally::Tally;
use crate::tape::{Event, Tape};
use crate::tapes::{document, messed, odd_events};

const SEED: u64 = 0x6c75_6269_6b70;

/// How many documents are read; how many sheets are tried.
const DOCUMENTS: usize = 20_000;
const SHEETS: usize = 30_000;

/// Where the count stands in the rows.
const COUNT: usize = 17;

fn checks(calls: &'static str) -> Checks {
    Checks::new(
        calls,
        "their states with the Rust's handlers",
        "no documents",
    )
}

/// The sheet with each count that is tried: 0, right, one more, one less, the largest.
fn damaged(sheet: &Sheet) -> Vec<Sheet> {
    let right = sheet.rows[COUNT];
    let counts = [0, right, right + 1, right.wrapping_sub(1), u32::MAX];
    let with = |count: u32| {
        let mut sheet = sheet.clone();
        sheet.rows[COUNT] = count;
        sheet
    };
    counts.map(with).into()
}

/// Each damaged sheet converted, twice, and read on, converted and not.
fn tried(checks: &mut Checks, sheet: &Sheet, events: &[Event]) {
    let tape = Tape::of(events);
    for sheet in damaged(sheet) {
        let converted = checks.convert(&sheet);
        checks.convert(&converted);
        checks.read(&sheet, &tape);
        checks.read(&converted, &tape);
    }
}

/// Random documents, event by event or in pieces, each sheet on the way tried.
pub fn documents() -> Vec<Tally> {
    let mut checks = checks("random documents event by event and in pieces, each sheet with its count damaged, converted, read on");
    let mut random = Random::new(SEED);
    for index in 0..DOCUMENTS {
        let events = match index % 3 {
            0 => messed(&mut random),
            _ => document(&mut random),
        };
        let start = State::cleared_by(index % 2 == 1);
        let mut sheet = start.sheet(rooms(&start, &events)[0]);
        let pieces: Vec<Vec<Event>> = match index % 4 {
            0 => events.iter().map(|event| vec![event.clone()]).collect(),
            _ => cut(&events, &mut random),
        };
        for piece in pieces {
            if index % 8 == 0 || random.below(8) == 0 {
                tried(&mut checks, &sheet, &piece);
            }
            sheet = checks.read(&sheet, &Tape::of(&piece));
        }
    }
    checks.tallies()
}

/// Random good sheets with their count damaged, another number damaged in half of them, or cut to bad lengths.
pub fn sheets() -> Vec<Tally> {
    let mut checks =
        checks("random sheets with their count damaged, and another number, converted and read on");
    let mut random = Random::new(SEED + 1);
    for index in 0..SHEETS {
        let state = random_state(&mut random);
        let events = odd_events(&mut random, 1 + index % 4);
        let rooms = rooms(&state, &events);
        let mut sheet = state.sheet(rooms[index % rooms.len()]);
        if index % 2 == 0 {
            damage_one(&mut sheet.rows, &mut random);
        }
        if index % 16 == 1 {
            let length = sheet.rows.len() - 1 - random.below(9);
            sheet.rows.truncate(length.max(1 + COUNT));
        }
        for count in [0, 1, 2, sheet.rows[COUNT], u32::MAX] {
            let mut sheet = sheet.clone();
            sheet.rows[COUNT] = count;
            checks.convert(&sheet);
        }
        tried(&mut checks, &sheet, &events);
    }
    let blank = State::cleared().sheet(Lent { rows: 60, names: 5 });
    for length in 0..=60 {
        let mut sheet = blank.clone();
        sheet.rows.truncate(length);
        checks.convert(&sheet);
    }
    checks.tallies()
}

/// The light: where a root was seen and the room is enough, lowering gives 13 exactly if the count that reading left is above 0. Lowerings of
/// sheets with a damaged count are those of the model.
pub fn light() -> Vec<Tally> {
    let mut lights = Tally::new("the light after random documents beside lowering");
    let mut lowerings = Lowerings::new(
        "lowerings of sheets with their count damaged",
        "their graphs with the Rust's",
    );
    let mut random = Random::new(SEED + 2);
    for index in 0..DOCUMENTS {
        let events = match index % 3 {
            0 => messed(&mut random),
            _ => document(&mut random),
        };
        let start = State::cleared_by(index % 2 == 1);
        let Lent { rows, names } = rooms(&start, &events)[0];
        let mut sheet = start.sheet(Lent { rows, names });
        for piece in cut(&events, &mut random) {
            reader::read(&mut sheet, &Tape::of(&piece));
        }
        let Some(state) = State::of(&sheet) else {
            lights.count(Err(format!("{events:?}: the sheet is not good")));
            continue;
        };
        let room = Room::exact(&state);
        let mut lowered = room.lent();
        grapher::lower(&sheet, &mut lowered);
        let red = sheet.rows[COUNT] > 0;
        if state.root_seen && (lowered.answer.number == 13) != red {
            let (count, number) = (sheet.rows[COUNT], lowered.answer.number);
            lights.count(Err(format!("{events:?}: count {count}, lowering {number}")));
        } else {
            lights.count(Ok(()));
        }
        if index % 4 == 0 {
            for sheet in damaged(&sheet) {
                lowerings.lower(&sheet, room);
            }
        }
    }
    [vec![lights], lowerings.tallies()].concat()
}
