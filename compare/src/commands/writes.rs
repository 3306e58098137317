//! Compares `lubiksan_write` with the model of order 8, its texts with other parsers, and the sheets that they are read into with the first ones.

use std::process::ExitCode;
use std::thread;

use compare::schemas;
use compare::tally::Tally;
use compare::writes::{limits, longer, schemas as real, small, values};

type Group = fn() -> Vec<Tally>;

/// All of them.
pub fn run() -> ExitCode {
    let groups: [Group; 10] = [
        small::compare,
        values::bytes,
        values::short,
        values::references,
        values::places,
        longer::schemas,
        longer::sheets,
        longer::accented,
        limits::compare,
        written_schemas,
    ];
    let running = groups.map(thread::spawn);
    let tallies = running.map(|group| group.join().expect("the group runs to its end"));
    print(&tallies.concat())
}

fn written_schemas() -> Vec<Tally> {
    let Some(folder) = schemas::folder() else {
        return Vec::new();
    };
    real::compare(&folder).expect("the schemas can be read")
}

fn print(tallies: &[Tally]) -> ExitCode {
    let counted = || tallies.iter().filter(|tally| tally.cases() > 0);
    counted().for_each(|tally| println!("{tally}"));
    let cases: u64 = counted().map(Tally::cases).sum();
    let differences: u64 = counted().map(Tally::differences).sum();
    println!("compared {cases} cases of the schema written back, {differences} differences");
    ExitCode::from(u8::from(differences > 0))
}
