//! The count of cases and differences of one group.

use std::collections::BTreeMap;
use std::fmt::{self, Debug, Display};

/// How many differences are kept to be printed.
const SHOWN: usize = 5;

/// One group of cases.
#[derive(Clone)]
pub struct Tally {
    group: &'static str,
    cases: u64,
    differences: u64,
    left_out: u64,
    shown: Vec<String>,
    numbers: BTreeMap<u32, u64>,
}

impl Tally {
    /// A group without cases.
    pub fn new(group: &'static str) -> Self {
        Tally {
            group,
            cases: 0,
            differences: 0,
            left_out: 0,
            shown: Vec::new(),
            numbers: BTreeMap::new(),
        }
    }

    /// Counts one case: `call` on `input` must give `expected` and gave `ours`.
    pub fn compare<A: PartialEq + Debug>(
        &mut self,
        call: &str,
        input: &dyn Debug,
        expected: A,
        ours: A,
    ) {
        self.count(if expected == ours {
            Ok(())
        } else {
            Err(format!(
                "{call} of {input:?}: {expected:?} is expected, ours gives {ours:?}"
            ))
        });
    }

    /// Counts one case: it agrees, or this is the difference.
    pub fn count(&mut self, compared: Result<(), String>) {
        self.cases += 1;
        if let Err(difference) = compared {
            self.differences += 1;
            if self.shown.len() < SHOWN {
                self.shown.push(difference);
            }
        }
    }

    /// Counts one case if it could be compared, with what was called.
    pub fn count_some(&mut self, compared: Option<Result<(), String>>, call: impl Fn() -> String) {
        if let Some(compared) = compared {
            self.count(compared.map_err(|difference| format!("{}: {difference}", call())));
        }
    }

    /// Counts one case that is left out of the comparison.
    pub fn leave_out(&mut self) {
        self.left_out += 1;
    }

    /// Counts a number that a call gave, to show which ones the cases meet.
    pub fn given(&mut self, number: u32) {
        *self.numbers.entry(number).or_default() += 1;
    }

    /// The number of cases.
    pub fn cases(&self) -> u64 {
        self.cases
    }

    /// The number of cases in which the answers differ.
    pub fn differences(&self) -> u64 {
        self.differences
    }
}

impl Display for Tally {
    fn fmt(&self, f: &mut fmt::Formatter<'_>) -> fmt::Result {
        write!(
            f,
            "{}: {} cases, {} differences",
            self.group, self.cases, self.differences
        )?;
        if self.left_out > 0 {
            write!(f, ", {} left out", self.left_out)?;
        }
        if !self.numbers.is_empty() {
            let given = self.numbers.iter().map(|(n, k)| format!("{n} x{k}"));
            write!(
                f,
                "; numbers given {}",
                given.collect::<Vec<_>>().join(", ")
            )?;
        }
        self.shown
            .iter()
            .try_for_each(|line| write!(f, "\n  {line}"))
    }
}
