//! Order 5: the numbers of heads. The judges are the model, the worked examples, and the events themselves: from a cleared sheet event
//! c of the run carries the head's name.

use super::check::{rooms, Checks};
use crate::definitions::numbered::{examples, numbered_sheet, GOODS};
use crate::definitions::readings::cut;
use crate::definitions::sheets::random_state;
use crate::grapher;
use crate::leaves::{local_name, normalize_type_name};
use crate::lowerings::check::Room;
use crate::paper::state::State;
use crate::random::Random;
use crate::reader;
use crate::tally::Tally;
use crate::tape::{events, Event, Tape};
use crate::tapes::{document, messed, odd_events};

const SEED: u64 = 0x6c75_6269_6b60;

/// How many documents are read; how many sheets are tried.
const DOCUMENTS: usize = 60_000;
const SHEETS: usize = 30_000;

fn checks(calls: &'static str) -> Checks {
    Checks::new(
        calls,
        "their states with the Rust's handlers",
        "no documents",
    )
}

/// The worked examples, number, place and heads by hand, and what is good.
pub fn written() -> Vec<Tally> {
    let mut heads = Tally::new("worked examples of the numbers, number, place and heads");
    let mut goods = Tally::new("events done and the numbers of two heads: good or not");
    let mut checks = checks("both, with the model");
    for example in examples() {
        let mut after = example.sheet.clone();
        let given = reader::read(&mut after, &example.tape);
        let found = (given, example.is_in(&after));
        heads.compare(
            "lubiksan_read",
            &example.shows,
            (example.answer, true),
            found,
        );
        checks.read(&example.sheet, &example.tape);
    }
    for given in GOODS {
        let mut sheet = numbered_sheet(given);
        let number = reader::read(&mut sheet, &Tape::default()).number;
        goods.compare("lubiksan_read", &given, given.3, number == 0);
        for lines in ["", "</>", "<element name=c type=d/><complexType name=e>"] {
            checks.read(&numbered_sheet(given), &Tape::of(&events(lines)));
        }
    }
    [vec![heads, goods], checks.tallies()].concat()
}

/// Good sheets with any numbers, and with one c that may be at, above or below the events done, of a head or of another row.
pub fn sheets() -> Vec<Tally> {
    let mut checks = checks("random sheets with numbers, one c changed in half of them, read on");
    let mut random = Random::new(SEED);
    for index in 0..SHEETS {
        let state = random_state(&mut random);
        let events = odd_events(&mut random, 1 + index % 8);
        let rooms = rooms(&state, &events);
        let mut sheet = state.sheet(rooms[index % rooms.len()]);
        if index % 2 == 0 {
            let row = random.below(1 + state.rows.len());
            let near = state.events.wrapping_add(random.below(4) as u32);
            sheet.rows[10 * row + 9] = near.wrapping_sub(2);
        }
        checks.read(&sheet, &Tape::of(&events));
    }
    checks.tallies()
}

/// Random documents in pieces under each choice: event c carries the name of a head, and of a root or type of the graph.
pub fn documents() -> Vec<Tally> {
    let mut heads =
        Tally::new("heads of random documents, each with the name that event c carries");
    let mut graphs = Tally::new("roots and types of their graphs, the same");
    let mut random = Random::new(SEED + 1);
    for index in 0..DOCUMENTS {
        let events = match index % 3 {
            0 => messed(&mut random),
            _ => document(&mut random),
        };
        let start = State::cleared_by(index % 2 == 1);
        let mut sheet = start.sheet(rooms(&start, &events)[0]);
        let mut done: Vec<Event> = Vec::new();
        for piece in cut(&events, &mut random) {
            let given = reader::read(&mut sheet, &Tape::of(&piece));
            done.extend(piece.into_iter().take(given.place as usize));
        }
        let Some(state) = State::of(&sheet) else {
            heads.count(Err(format!("{events:?}: the sheet is not good")));
            continue;
        };
        let rows = state.rows.iter().filter(|row| row.is_head());
        for row in rows {
            let agreed = carried(&done, row.c, |name| name == row.texts[0]);
            heads.count(agreed.map_err(|words| format!("{row:?}: {words}")));
        }
        let mut lowered = Room::exact(&state).lent();
        grapher::lower(&sheet, &mut lowered);
        if lowered.answer.number == 0 {
            in_graph(
                &done,
                &lowered.graph.rows,
                &lowered.graph.names,
                &mut graphs,
            );
        }
    }
    vec![heads, graphs]
}

/// Each root and type of the graph has the name that its event carries, a type's normalised.
fn in_graph(done: &[Event], rows: &[u32], names: &[u8], graphs: &mut Tally) {
    let used = rows.chunks(10).take(rows[1] as usize).skip(2);
    for row in used.filter(|row| (2..=8).contains(&row[0])) {
        let text = &names[row[1] as usize..][..row[2] as usize];
        let agreed = carried(done, row[9], |name| match row[0] {
            2 => name.as_bytes() == text,
            _ => normalize_type_name(name).as_bytes() == text,
        });
        graphs.count(agreed.map_err(|words| format!("{row:?}: {words}")));
    }
}

/// The event of this number has a name that passes.
fn carried(done: &[Event], number: u32, passes: impl Fn(&str) -> bool) -> Result<(), String> {
    let event = done.get(number as usize);
    let name = match event {
        Some(Event::Start(tag) | Event::Empty(tag)) => {
            let mut keyed = tag.attributes.iter();
            keyed.find(|(key, _)| local_name(key) == "name")
        }
        _ => None,
    };
    match name {
        Some((_, name)) if passes(name) => Ok(()),
        _ => Err(format!("event {number} is {event:?}")),
    }
}
