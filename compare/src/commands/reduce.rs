//! Compares the reduction and the test of a graph's form, of the static library `lubiksan`, with the model of order 6.

use std::process::ExitCode;
use std::thread;

use compare::reduce::groups;
use compare::schemas;
use compare::tally::Tally;

type Group = fn() -> Vec<Tally>;

/// All of them.
pub fn run() -> ExitCode {
    let groups: [Group; 10] = [
        groups::small,
        groups::spelled,
        groups::any,
        groups::accented,
        groups::changed,
        groups::ordered,
        groups::lengths,
        groups::largest,
        groups::crowded,
        of_schemas,
    ];
    let running = groups.map(thread::spawn);
    let tallies = running.map(|group| group.join().expect("the group runs to its end"));
    print(&tallies.concat())
}

/// The graphs of the schemas, where their folder is there.
fn of_schemas() -> Vec<Tally> {
    let compared = |folder| groups::schemas(folder).expect("the schemas can be read");
    schemas::folder().as_deref().map_or_else(Vec::new, compared)
}

fn print(tallies: &[Tally]) -> ExitCode {
    let counted = || tallies.iter().filter(|tally| tally.cases() > 0);
    counted().for_each(|tally| println!("{tally}"));
    let cases: u64 = counted().map(Tally::cases).sum();
    let differences: u64 = counted().map(Tally::differences).sum();
    println!(
        "compared {cases} cases of the reduction and of a graph's form, {differences} differences"
    );
    ExitCode::from(u8::from(differences > 0))
}
