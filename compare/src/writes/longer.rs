//! Random schemas, with accented letters too, good sheets that no reading reaches, odd values, and damaged sheets.

use super::check::Checks;
use crate::definitions::readings::damage_one;
use crate::definitions::sheets::random_state;
use crate::lowerings::check::sheet_of;
use crate::lowerings::generate::schema;
use crate::paper::state::State;
use crate::paper::written::{written, Written};
use crate::random::Random;
use crate::tally::Tally;
use crate::tapes::accented::{move_boundary, Accents};

const SEED: u64 = 0x6c75_6269_6b30;

/// How many schemas and sheets are written.
const SCHEMAS: usize = 12_000;
const SHEETS: usize = 30_000;
/// How many schemas have accented letters.
const ACCENTED: usize = 8_000;

/// Parts of values: held by themselves, held with others, and never held.
const PARTS: [&str; 24] = [
    "a", "Z9", " ", "\t", "\r\n", "\"", "'", "&amp;", "&lt;", "&quot;", "&apos;", "&gt;", "&#65;",
    "&#x1F;", "&#xd7ff;", "&#55296;", "&", "amp;", ";", "<", ">", "]]>", "\u{1}", "\u{7f}",
];

/// A value of some of the parts; the last ones seldom.
fn odd(random: &mut Random) -> String {
    let parts = if random.below(4) == 0 {
        PARTS.len()
    } else {
        13
    };
    (0..random.below(5))
        .map(|_| PARTS[random.below(parts)])
        .collect()
}

/// Some of the texts of a state changed to odd values.
fn with_odd_values(mut state: State, random: &mut Random) -> State {
    let few = 1 + random.below(12);
    for row in state.rows.iter_mut().filter(|_| state.root_seen) {
        for text in &mut row.texts {
            if random.below(few) == 0 {
                *text = odd(random);
            }
        }
    }
    state
}

/// Random schemas of up to 14 items, in any context, every other one with odd values, under both choices.
pub fn schemas() -> Vec<Tally> {
    let mut checks = Checks::new("random schemas, in six rooms");
    let mut random = Random::new(SEED);
    for index in 0..SCHEMAS {
        let mut state = schema(&mut random, 14);
        state.by_standard = index % 3 == 0;
        if index % 2 == 0 {
            state = with_odd_values(state, &mut random);
        }
        checks.in_rooms(&state);
    }
    checks.tallies()
}

/// Good sheets that no reading need reach, with odd values, and sheets with one number or one byte damaged.
pub fn sheets() -> Vec<Tally> {
    let mut checks = Checks::new("random good sheets in six rooms, and damaged ones");
    let mut random = Random::new(SEED + 1);
    for index in 0..SHEETS {
        let plain = random_state(&mut random);
        let state = with_odd_values(plain, &mut random);
        checks.in_rooms(&state);
        let room = match written(&state) {
            Written::Text(text) => text.len(),
            _ => 100,
        };
        let mut sheet = sheet_of(&state);
        if index % 4 == 0 {
            let at = random.below(sheet.names.len());
            sheet.names[at] = random.below(256) as u8;
        } else {
            damage_one(&mut sheet.rows, &mut random);
        }
        checks.write(&sheet, room);
        checks.write(&sheet, 65_537);
    }
    checks.tallies()
}

/// Random schemas with accented letters, under both choices, and their sheets with the end of a pair moved by one byte.
pub fn accented() -> Vec<Tally> {
    let mut checks = Checks::new("random schemas with accented letters, in six rooms");
    let mut random = Random::new(SEED + 2);
    for index in 0..ACCENTED {
        let mut state = schema(&mut random, 14);
        state.by_standard = index % 3 == 0;
        state.rows = Accents::new(&mut random).rows(&state.rows);
        checks.in_rooms(&state);
        let mut sheet = sheet_of(&state);
        move_boundary(&mut sheet.rows, &state.rows, &mut random);
        checks.write(&sheet, 2_000);
    }
    checks.tallies()
}
