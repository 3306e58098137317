//! Compares `lubiksan_columns` and `lubiksan_rows` with the model of order 10.

use std::process::ExitCode;

use compare::columns::compared;
use compare::tally::Tally;

/// How many cases each height has.
const EACH: usize = 200;

/// All of them.
pub fn run() -> ExitCode {
    let groups = compared(EACH);
    groups.iter().for_each(|group| println!("{group}"));
    let cases: u64 = groups.iter().map(Tally::cases).sum();
    let differences: u64 = groups.iter().map(Tally::differences).sum();
    println!("compared {cases} cases of columns and rows, {differences} differences");
    ExitCode::from(u8::from(differences > 0))
}
