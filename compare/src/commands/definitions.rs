//! Writes the cases for the definitions under crates/ into a folder: files of cases, the file that
//! names them, and a list of what each case shows.

use std::collections::BTreeMap;
use std::fs;
use std::io;
use std::path::Path;
use std::process::ExitCode;

use compare::definitions::{cases, print, Case};

use super::failed;

/// How many cases stand in one file.
const PER_FILE: usize = 40;

/// The cases of a seed, written into a folder.
pub fn run(folder: &str, seed: &str) -> ExitCode {
    let Ok(seed) = seed.parse() else {
        return failed("definitions", &"the seed is not a number");
    };
    match write_all(Path::new(folder), &cases(seed)) {
        Ok(()) => ExitCode::SUCCESS,
        Err(error) => failed("definitions", &error),
    }
}

fn write_all(folder: &Path, cases: &[Case]) -> io::Result<()> {
    let mut modules = String::from("-- The cases of the comparison with the Rust.\n");
    for (file, chunk) in cases.chunks(PER_FILE).enumerate() {
        let declarations: String = chunk
            .iter()
            .enumerate()
            .map(|(i, case)| print::declaration(file * PER_FILE + i, case))
            .collect();
        modules.push_str(&format!("pub mod Cases{file}\n"));
        let text = format!("-- Cases by computation.\n{}{declarations}", print::HEADER);
        fs::write(folder.join(format!("Cases{file}.antt")), text)?;
    }
    fs::write(folder.join("Lib.antt"), modules)?;
    fs::write(folder.join("groups"), groups(cases))?;
    fs::write(folder.join("shows"), shows(cases))
}

/// One line for each group: its number of cases, the numbers that they give, its name.
fn groups(cases: &[Case]) -> String {
    let mut counts: BTreeMap<&str, BTreeMap<u32, usize>> = BTreeMap::new();
    for case in cases {
        let numbers = counts.entry(case.group).or_default();
        *numbers.entry(case.call.number()).or_default() += 1;
    }
    let line = |(group, numbers): (&str, BTreeMap<u32, usize>)| {
        let given: Vec<String> = numbers.iter().map(|(n, k)| format!("{n} x{k}")).collect();
        let total: usize = numbers.values().sum();
        format!("{total:5}  {group} (numbers given: {})\n", given.join(", "))
    };
    counts.into_iter().map(line).collect()
}

/// One line for each case.
fn shows(cases: &[Case]) -> String {
    let line =
        |(index, case): (usize, &Case)| format!("case-{index} {}: {}\n", case.group, case.shows);
    cases.iter().enumerate().map(line).collect()
}
