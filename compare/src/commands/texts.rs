//! Compares `lubiksan_tape` of the static library `lubiksan` with the model of order 1, with quick-xml's events,
//! and with the verdicts of expat and libxml2 where the features of these names are on.

use std::process::ExitCode;
use std::thread;

use compare::schemas;
use compare::tally::Tally;
use compare::texts::check::{Classes, Counted};
use compare::texts::{limits, longer, small, Extent};

type Group = fn(Extent) -> Counted;

/// The stack of a group: the model nests as deep as the text.
const STACK: usize = 256 << 20;

/// All of this extent.
pub fn run(extent: Extent) -> ExitCode {
    let groups: [Group; 9] = [
        limits::specimens,
        small::whole,
        small::bytes,
        small::words,
        small::accented,
        longer::documents,
        longer::accented,
        limits::limits,
        schema_texts,
    ];
    let start = |group: Group| {
        let thread = thread::Builder::new().stack_size(STACK);
        thread.spawn(move || group(extent))
    };
    let running = groups.map(|group| start(group).expect("there is room for a thread"));
    let counted = running.map(|group| group.join().expect("the group runs to its end"));
    print(&counted)
}

fn schema_texts(extent: Extent) -> Counted {
    let Some(folder) = schemas::folder() else {
        return Counted::default();
    };
    longer::schemas(&folder, extent).expect("the schemas can be read")
}

fn print(counted: &[Counted]) -> ExitCode {
    let tallies = || counted.iter().flat_map(|group| &group.tallies);
    let texts: u64 = counted.iter().map(|group| group.texts).sum();
    let cases: u64 = tallies().map(Tally::cases).sum();
    let differences: u64 = tallies().map(Tally::differences).sum();
    tallies()
        .filter(|tally| tally.cases() > 0)
        .for_each(|tally| println!("{tally}"));
    println!("different by intention:");
    for (class, count) in classes(counted) {
        println!("  {class}: {count}");
    }
    println!(
        "compared {texts} texts in {cases} cases of the tape of a text, {differences} differences"
    );
    ExitCode::from(u8::from(differences > 0))
}

fn classes(counted: &[Counted]) -> Classes {
    let mut all = Classes::new();
    for (class, count) in counted.iter().flat_map(|group| &group.classes) {
        *all.entry(class.clone()).or_default() += count;
    }
    all
}
