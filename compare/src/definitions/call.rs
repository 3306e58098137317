//! A call with its arguments, and what the model answers.

use crate::paper::label::{label, Label};
use crate::paper::lowering::{lowering, Lowered};
use crate::paper::reading::{clear, read};
use crate::paper::sheet::Sheet;
use crate::paper::state::State;
use crate::paper::Answer;
use crate::tape::Tape;

/// A call of the paper with its arguments.
#[derive(Clone, Debug)]
pub enum Call {
    /// The sheet and the choice.
    Clear(Sheet, u32),
    Read(Sheet, Tape),
    Lower(Sheet, Sheet, Vec<u32>),
    Label {
        rows: Vec<u32>,
        names: Vec<u8>,
        words: Vec<u8>,
        row: u32,
    },
    Run(Sheet, Vec<Step>),
}

/// A call of a run: all its arguments but the schema sheet.
#[derive(Clone, Debug)]
pub enum Step {
    Read(Tape),
    Lower(Sheet, Vec<u32>),
}

/// What a call of a run answers; of a reading also the number in the run of the event that it refused.
pub enum Answered {
    Read(Answer, Option<u32>),
    Lowered(Lowered),
}

impl Answered {
    fn number(&self) -> u32 {
        match self {
            Answered::Read(answer, _) => answer.number,
            Answered::Lowered(lowered) => lowered.answer.number,
        }
    }
}

/// What a call gives.
pub enum Given {
    Sheet(Answer, Sheet),
    Lowered(Lowered),
    Label(Label),
    Ran(Vec<Answered>, Sheet),
}

/// "place is the event's number in the piece .. Added to events done before the call, it is the number in the run."
fn number_in_run(before: &Sheet, answer: Answer) -> Option<u32> {
    let state = State::of_lent(before)?;
    (3..=11)
        .contains(&answer.number)
        .then_some(state.events + answer.place)
}

/// The calls made one after the other, each on the sheet that the one before left.
fn ran(first: &Sheet, steps: &[Step]) -> Given {
    let mut sheet = first.clone();
    let mut answers = Vec::new();
    for step in steps {
        answers.push(match step {
            Step::Read(tape) => {
                let (answer, after) = read(&sheet, tape);
                let refused = number_in_run(&sheet, answer);
                sheet = after;
                Answered::Read(answer, refused)
            }
            Step::Lower(graph, scratch) => Answered::Lowered(lowering(&sheet, graph, scratch)),
        });
    }
    Given::Ran(answers, sheet)
}

impl Call {
    /// What the model gives for the call.
    pub fn given(&self) -> Given {
        match self {
            Call::Clear(sheet, choice) => {
                let (answer, sheet) = clear(sheet, *choice);
                Given::Sheet(answer, sheet)
            }
            Call::Read(sheet, tape) => {
                let (answer, sheet) = read(sheet, tape);
                Given::Sheet(answer, sheet)
            }
            Call::Lower(sheet, graph, scratch) => Given::Lowered(lowering(sheet, graph, scratch)),
            Call::Label {
                rows,
                names,
                words,
                row,
            } => Given::Label(label(rows, names, words, *row as usize)),
            Call::Run(first, steps) => ran(first, steps),
        }
    }

    /// The number that the model gives; of a run that of its last call.
    pub fn number(&self) -> u32 {
        match self.given() {
            Given::Sheet(answer, _) => answer.number,
            Given::Lowered(lowered) => lowered.answer.number,
            Given::Label(label) => label.number,
            Given::Ran(answers, _) => answers.last().map_or(0, Answered::number),
        }
    }
}
