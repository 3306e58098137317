//! Compares the pattern call of the static library `lubiksan` with the models of order 13.

use std::process::ExitCode;
use std::thread;

use compare::patterns::groups;
use compare::schemas;
use compare::tally::Tally;

type Group = fn() -> Vec<Tally>;

/// All of them.
pub fn run() -> ExitCode {
    let groups: [Group; 5] = [
        groups::small,
        groups::altered,
        groups::random,
        groups::limits,
        of_schemas,
    ];
    let running = groups.map(thread::spawn);
    let tallies = running.map(|group| group.join().expect("the group runs to its end"));
    print(&tallies.concat())
}

/// The patterns of the schemas, where their folder is there.
fn of_schemas() -> Vec<Tally> {
    let compared = |folder| groups::schemas(folder).expect("the schemas can be read");
    schemas::folder().as_deref().map_or_else(Vec::new, compared)
}

fn print(tallies: &[Tally]) -> ExitCode {
    tallies.iter().for_each(|tally| println!("{tally}"));
    let cases: u64 = tallies.iter().map(Tally::cases).sum();
    let differences: u64 = tallies.iter().map(Tally::differences).sum();
    println!("compared {cases} cases of the pattern call, {differences} differences");
    ExitCode::from(u8::from(differences > 0))
}
