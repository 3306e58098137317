//! Compares clearing, the reading call and the label call of the static library `lubiksan` with the model of
//! paper 01 and with the Rust.

use std::io;
use std::path::Path;
use std::process::ExitCode;
use std::thread;

use compare::calls::{counted, labels, longer, numbered, numbers, small, standard, written};
use compare::schemas;
use compare::tally::Tally;

type Group = fn() -> Vec<Tally>;

/// All of them.
pub fn run() -> ExitCode {
    let groups: [Group; 20] = [
        small::compare,
        numbers::compare,
        longer::documents,
        longer::sheets,
        longer::accented,
        longer::accented_sheets,
        written::compare,
        labels::compare,
        written_schemas,
        standard::written,
        standard::small,
        standard::documents,
        standard::sheets,
        schemas_by_standard,
        numbered::written,
        numbered::sheets,
        numbered::documents,
        counted::documents,
        counted::sheets,
        counted::light,
    ];
    let running = groups.map(thread::spawn);
    let tallies = running.map(|group| group.join().expect("the group runs to its end"));
    print(&tallies.concat())
}

fn written_schemas() -> Vec<Tally> {
    in_folder(written::schemas)
}

fn schemas_by_standard() -> Vec<Tally> {
    in_folder(standard::schemas)
}

/// What `compare` gives for the folder of the schemas, where it is there.
fn in_folder(compare: fn(&Path) -> io::Result<Vec<Tally>>) -> Vec<Tally> {
    let compared = |folder| compare(folder).expect("the schemas can be read");
    schemas::folder().as_deref().map_or_else(Vec::new, compared)
}

fn print(tallies: &[Tally]) -> ExitCode {
    let counted = || tallies.iter().filter(|tally| tally.cases() > 0);
    counted().for_each(|tally| println!("{tally}"));
    let cases: u64 = counted().map(Tally::cases).sum();
    let differences: u64 = counted().map(Tally::differences).sum();
    println!("compared {cases} cases of the reading and label calls, {differences} differences");
    ExitCode::from(u8::from(differences > 0))
}
