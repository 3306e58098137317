//! Runs: lists of readings and lowerings on one sheet.

use super::call::{Call, Step};
use super::readings::{cut, damage_one, roomy};
use super::{generator, Case};
use crate::paper::sheet::Sheet;
use crate::random::Random;
use crate::tape::Tape;
use crate::tapes::{document, messed, odd_events};

const SEED: u64 = 0x6c75_6269_6b04;

/// All cases about runs: documents in pieces, some of them refused, with lowerings in between.
pub fn cases(seed: u64) -> Vec<Case> {
    let mut random = generator(SEED, seed);
    (0..60).map(|index| run_case(&mut random, index)).collect()
}

fn run_case(random: &mut Random, index: usize) -> Case {
    let mut events = if index.is_multiple_of(3) {
        messed(random)
    } else {
        document(random)
    };
    if index.is_multiple_of(4) {
        events.extend(odd_events(random, 4));
    }
    let (from, first) = first_sheet(roomy(&events), random, index);
    let mut steps = Vec::new();
    for piece in cut(&events, random) {
        steps.push(Step::Read(Tape::of(&piece)));
        steps.extend(between(random));
    }
    Case {
        group: "runs",
        shows: format!("run {index} from {from}"),
        call: Call::Run(first, steps),
    }
}

/// The first sheet: cleared with 0 or with 1; damaged in row 0 or 1; of a length that 1 refuses; or with little room.
fn first_sheet(cleared: Sheet, random: &mut Random, index: usize) -> (&'static str, Sheet) {
    let mut sheet = cleared;
    match index % 8 {
        2 | 3 => {
            sheet.rows[9] = 1;
            ("a sheet cleared with 1", sheet)
        }
        5 => {
            damage_one(&mut sheet.rows[..20], random);
            ("a damaged sheet", sheet)
        }
        6 => {
            sheet.rows.extend([0; 5]);
            ("a sheet of a bad length", sheet)
        }
        7 => {
            sheet.rows.truncate(40);
            ("a cleared sheet of four rows", sheet)
        }
        _ => ("a cleared sheet", sheet),
    }
}

/// What stands behind a reading: nothing, a lowering, or a reading of a tape that is too long.
fn between(random: &mut Random) -> Option<Step> {
    match random.below(6) {
        0 => None,
        1 => Some(Step::Read(Tape {
            text: Vec::new(),
            marks: vec![0; 16_385],
        })),
        2 => Some(lower(205, 90, 64)),
        3 => Some(lower(60, 8, 65)),
        4 => Some(lower(900, 300, 63)),
        _ => Some(lower(900, 300, 64)),
    }
}

/// A lowering into buffers whose old contents are not zero.
fn lower(rows: usize, names: usize, scratch: usize) -> Step {
    let graph = Sheet {
        rows: vec![6; rows],
        names: vec![200; names],
    };
    Step::Lower(graph, vec![8; scratch])
}
