//! One lowering compared.

use crate::grapher;
use crate::ir::lower::{lower, LowerError};
use crate::paper::answer;
use crate::paper::back::{graph_of, Graph};
use crate::paper::graph::graph_rows;
use crate::paper::lowering::{lowering, Lowered, SCRATCH_LEAST};
use crate::paper::sheet::{names_used, rows_used, Lent, Row, Sheet};
use crate::paper::state::State;
use crate::tally::Tally;

/// What is lent to a lowering; its old contents are not zero.
#[derive(Clone, Copy, Debug)]
pub struct Room {
    pub rows: usize,
    pub names: usize,
    pub scratch: usize,
}

impl Room {
    /// The graph sheet and the scratch before a call.
    pub fn lent(self) -> Lowered {
        Lowered {
            answer: answer(u32::MAX, u32::MAX),
            graph: Sheet {
                rows: vec![6; self.rows],
                names: vec![200; self.names],
            },
            scratch: vec![8; self.scratch],
        }
    }

    /// The room that the graph of a state takes exactly; the smallest where it has none.
    pub fn exact(state: &State) -> Room {
        let rows =
            lower(&state.schema()).map_or(vec![Row::new(1, &[""])], |graph| graph_rows(&graph));
        Room {
            rows: 10 * rows_used(&rows),
            names: names_used(&rows),
            scratch: SCRATCH_LEAST,
        }
    }

    /// Exact; one row less, one byte less, one number of scratch less; rows but no names; larger; the smallest.
    pub fn all(self) -> [Room; 7] {
        let Room {
            rows,
            names,
            scratch,
        } = self;
        [
            (rows, names, scratch),
            (rows - 10, names, scratch),
            (rows, names.saturating_sub(1), scratch),
            (rows, names, scratch - 1),
            (rows + 10, 0, scratch + 1),
            (rows + 50, names + 40, 4_096),
            (20, 0, scratch),
        ]
        .map(|(rows, names, scratch)| Room {
            rows,
            names,
            scratch,
        })
    }
}

/// The sheet of a state with a little room left.
pub fn sheet_of(state: &State) -> Sheet {
    state.sheet(Lent {
        rows: 10 * rows_used(&state.rows) + 20,
        names: names_used(&state.rows) + 3,
    })
}

/// The counts of one group of cases.
pub struct Checks {
    calls: Tally,
    graphs: Tally,
}

impl Checks {
    /// A group without cases, and the names of what is counted in it.
    pub fn new(calls: &'static str, graphs: &'static str) -> Checks {
        Checks {
            calls: Tally::new(calls),
            graphs: Tally::new(graphs),
        }
    }

    /// What was counted: the calls with the model, the graphs with `lower`.
    pub fn tallies(self) -> Vec<Tally> {
        vec![self.calls, self.graphs]
    }

    /// The sheet of `state` lowered in each of its rooms.
    pub fn in_rooms(&mut self, state: &State) {
        self.sheet_in_rooms(&sheet_of(state), state);
    }

    /// The sheet, which is that of `state`, lowered in each of its rooms.
    pub fn sheet_in_rooms(&mut self, sheet: &Sheet, state: &State) {
        for room in Room::exact(state).all() {
            self.lower(sheet, room);
        }
    }

    /// One lowering.
    pub fn lower(&mut self, sheet: &Sheet, room: Room) {
        let lent = room.lent();
        self.lower_into(sheet, &lent.graph, &lent.scratch);
    }

    /// One lowering into a graph sheet and with a scratch of these contents.
    pub fn lower_into(&mut self, sheet: &Sheet, graph: &Sheet, scratch: &[u32]) {
        let model = lowering(sheet, graph, scratch);
        let kept = sheet.clone();
        let mut ours = Lowered {
            answer: answer(u32::MAX, u32::MAX),
            graph: graph.clone(),
            scratch: scratch.to_vec(),
        };
        grapher::lower(sheet, &mut ours);
        let shown = || shown(sheet, graph.lent(), scratch.len());
        self.calls.given(ours.answer.number);
        let agreed = same(&model, &ours)
            .and_then(|()| changed(&kept, sheet))
            .map_err(|difference| format!("{}: {difference}", shown()));
        self.calls.count(agreed);
        match State::of_lent(sheet).map(|state| with_rust(&state, sheet, &ours)) {
            Some(WithRust::Compared(agreed)) => self.graphs.count_some(Some(agreed), shown),
            Some(WithRust::LeftOut) => self.graphs.leave_out(),
            Some(WithRust::NotKnown) | None => {}
        }
    }
}

/// The schema sheet is what it was.
fn changed(before: &Sheet, after: &Sheet) -> Result<(), String> {
    if before == after {
        return Ok(());
    }
    Err("the schema sheet was changed".to_owned())
}

fn shown(sheet: &Sheet, graph: Lent, scratch: usize) -> String {
    let rows = State::of_lent(sheet).map_or(format!("{:?}", sheet.lent()), |state| {
        format!("{:?}", state.rows)
    });
    format!("lubiksan_lower of {rows} into {graph:?} with {scratch} of scratch")
}

/// Answer, graph and scratch are the same; else where they first differ.
pub fn same(model: &Lowered, ours: &Lowered) -> Result<(), String> {
    if model == ours {
        return Ok(());
    }
    let rows = first_difference(&model.graph.rows, &ours.graph.rows);
    let names = first_difference(&model.graph.names, &ours.graph.names);
    let scratch = first_difference(&model.scratch, &ours.scratch);
    Err(format!(
        "the model gives {:?}, ours {:?}; rows differ {rows:?}, names differ {names:?}, scratch differs {scratch:?}",
        model.answer, ours.answer,
    ))
}

/// The first index at which the lists differ, with both values.
fn first_difference<A: PartialEq + Copy>(model: &[A], ours: &[A]) -> Option<(usize, A, A)> {
    let pairs = model.iter().zip(ours).enumerate();
    pairs
        .map(|(at, (&a, &b))| (at, a, b))
        .find(|(_, a, b)| a != b)
}

/// A lowering beside the Rust's.
enum WithRust {
    /// It was refused for what the Rust does not know.
    NotKnown,
    /// Two types have one name, and no base is refused before: "runs against the Rust leave these inputs out".
    LeftOut,
    Compared(Result<(), String>),
}

/// A lowering of a good sheet gave what `lower` gives for the schema in it.
fn with_rust(state: &State, sheet: &Sheet, ours: &Lowered) -> WithRust {
    let number = ours.answer.number;
    if !matches!(number, 0 | 13 | 15 | 20) {
        return WithRust::NotKnown;
    }
    let rust = lower(&state.schema());
    if rust.is_ok() && state.first_repeated().is_some() {
        return WithRust::LeftOut;
    }
    WithRust::Compared(match (number, rust) {
        (0, Ok(graph)) => same_graph(&Graph::from(graph), graph_of(&ours.graph)),
        (13, Err(error)) => same_type(&error, sheet, ours.answer.place as usize),
        (15, Ok(_)) => Ok(()),
        (_, rust) => Err(format!("ours gives {number}, `lower` {rust:?}")),
    })
}

fn same_graph(rust: &Graph, ours: Option<Graph>) -> Result<(), String> {
    if ours.as_ref() == Some(rust) {
        return Ok(());
    }
    Err(format!("`lower` gives {rust:?}, ours {ours:?}"))
}

/// The row that 13 names is the simple type that `lower` names.
fn same_type(error: &LowerError, sheet: &Sheet, place: usize) -> Result<(), String> {
    let LowerError::UnknownBase { base, context } = error;
    let row = sheet.rows.chunks(10).nth(place);
    let text = |row: &[u32], at: usize| {
        let (start, length) = (row[at] as usize, row[at + 1] as usize);
        String::from_utf8_lossy(&sheet.names[start..start + length]).into_owned()
    };
    let named = |row: &[u32]| row[0] == 3 && text(row, 1) == *context && text(row, 3) == *base;
    if row.is_some_and(named) {
        return Ok(());
    }
    Err(format!(
        "`lower` gives {error:?}, ours row {place}, {row:?}"
    ))
}
