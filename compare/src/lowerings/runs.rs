//! Lists of readings and lowerings through the library, compared with the model's run: every answer, every graph and scratch, the last sheet.

use super::check::same;
use crate::definitions::call::{Answered, Call, Given, Step};
use crate::definitions::runs::cases;
use crate::grapher;
use crate::paper::answer;
use crate::paper::lowering::Lowered;
use crate::paper::sheet::Sheet;
use crate::reader;
use crate::tally::Tally;

/// How many seeds are taken, each of 60 runs.
const SEEDS: u64 = 400;

/// Random runs.
pub fn compare() -> Vec<Tally> {
    let mut answers = Tally::new("calls of random runs with the model's");
    let mut lasts = Tally::new("the last sheets of random runs with the model's");
    for case in (0..SEEDS).flat_map(cases) {
        let Call::Run(first, steps) = &case.call else {
            continue;
        };
        let Given::Ran(given, last) = case.call.given() else {
            continue;
        };
        let mut sheet = first.clone();
        for (step, model) in steps.iter().zip(&given) {
            let agreed = one(&mut sheet, step, model, &mut answers);
            answers.count(agreed.map_err(|difference| format!("{}: {difference}", case.shows)));
        }
        lasts.compare("the run", &case.shows, last, sheet);
    }
    vec![answers, lasts]
}

/// One call of a run on the sheet that the calls before left.
fn one(
    sheet: &mut Sheet,
    step: &Step,
    model: &Answered,
    numbers: &mut Tally,
) -> Result<(), String> {
    match (step, model) {
        (Step::Read(tape), Answered::Read(model, _)) => {
            let ours = reader::read(sheet, tape);
            numbers.given(ours.number);
            if ours == *model {
                return Ok(());
            }
            Err(format!("the model reads {model:?}, ours {ours:?}"))
        }
        (Step::Lower(graph, scratch), Answered::Lowered(model)) => {
            let mut ours = Lowered {
                answer: answer(u32::MAX, u32::MAX),
                graph: graph.clone(),
                scratch: scratch.clone(),
            };
            grapher::lower(sheet, &mut ours);
            numbers.given(ours.answer.number);
            same(model, &ours)
        }
        _ => Err("the model answers another call".to_owned()),
    }
}
