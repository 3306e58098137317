//! Compares the lowering call of the static library `lubiksan` with the model of paper 01 and with the Rust.

use std::process::ExitCode;
use std::thread;

use compare::lowerings::{blocks, limits, longer, notes, repeated, runs, small, written};
use compare::schemas;
use compare::tally::Tally;

type Group = fn() -> Vec<Tally>;

/// All of them.
pub fn run() -> ExitCode {
    let groups: [Group; 13] = [
        small::compare,
        repeated::examples,
        repeated::compare,
        longer::schemas,
        longer::documents,
        longer::sheets,
        longer::accented,
        blocks::compare,
        limits::compare,
        runs::compare,
        notes::compare,
        written::compare,
        written_schemas,
    ];
    let running = groups.map(thread::spawn);
    let tallies = running.map(|group| group.join().expect("the group runs to its end"));
    print(&tallies.concat())
}

fn written_schemas() -> Vec<Tally> {
    let Some(folder) = schemas::folder() else {
        return Vec::new();
    };
    written::schemas(&folder).expect("the schemas can be read")
}

fn print(tallies: &[Tally]) -> ExitCode {
    let counted = || tallies.iter().filter(|tally| tally.cases() > 0);
    counted().for_each(|tally| println!("{tally}"));
    let cases: u64 = counted().map(Tally::cases).sum();
    let differences: u64 = counted().map(Tally::differences).sum();
    println!("compared {cases} cases of the lowering call, {differences} differences");
    ExitCode::from(u8::from(differences > 0))
}
