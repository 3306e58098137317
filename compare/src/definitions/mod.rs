//! Cases for the definitions under crates/: calls with the values that the model of the paper gives,
//! written as statements that the proof checker computes.
//!
//! | module | holds |
//! |---|---|
//! | `call` | a call with its arguments, and what the model answers |
//! | `print` | lists, sheets and statements in the proof language |
//! | `readings` | tapes read with roomy and tight buffers, damaged, in pieces |
//! | `sheets` | good sheets that no reading reaches, and bad sheets |
//! | `standard` | sheets cleared with each choice of order 3 |
//! | `numbered` | the numbers of heads of order 5, worked out by hand |
//! | `graphs` | lowering and label calls |
//! | `repeated` | types of one name, with the answers worked out by hand |
//! | `runs` | lists of readings and lowerings |

pub mod call;
pub(crate) mod graphs;
pub mod numbered;
pub mod print;
pub(crate) mod readings;
pub mod repeated;
pub(crate) mod runs;
pub(crate) mod sheets;
pub mod standard;

use std::collections::HashSet;

use crate::random::Random;
use call::Call;

/// A call with the group that it belongs to and what it shows.
#[derive(Clone)]
pub struct Case {
    pub group: &'static str,
    pub shows: String,
    pub call: Call,
}

/// All cases, each call once. The random ones depend on `seed`.
pub fn cases(seed: u64) -> Vec<Case> {
    let mut seen = HashSet::new();
    let all = [
        readings::cases(seed),
        sheets::cases(seed),
        standard::cases(seed),
        numbered::cases(),
        graphs::cases(seed),
        repeated::cases(),
        runs::cases(seed),
    ];
    all.into_iter()
        .flatten()
        .filter(|case| seen.insert(print::statement(&case.call)))
        .collect()
}

/// The cases of reading and clearing, in their groups.
pub fn reading_cases(seed: u64) -> Vec<Case> {
    [
        readings::cases(seed),
        sheets::cases(seed),
        standard::cases(seed),
        numbered::cases(),
    ]
    .concat()
}

/// The generator of one group; the seed 0 gives the fixed sample.
fn generator(group: u64, seed: u64) -> Random {
    Random::new(group ^ (seed << 32))
}
