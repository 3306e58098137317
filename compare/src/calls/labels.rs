//! The label call: every row of graphs, rows and word lists of any form.

use crate::definitions::call::Call;
use crate::definitions::graphs::cases;
use crate::definitions::readings::damage_one;
use crate::definitions::sheets::random_state;
use crate::grapher;
use crate::paper::label::label;
use crate::paper::lowering::{lowering, SCRATCH_LEAST};
use crate::paper::sheet::{names_used, rows_used, Lent, Sheet};
use crate::random::Random;
use crate::tally::Tally;

const SEED: u64 = 0x6c75_6269_6b30;

/// How many seeds of the cases of the definitions are taken, and how many graphs.
const SEEDS: u64 = 40;
const GRAPHS: usize = 12_000;

/// Word lists, good ones first.
const LISTS: [&[u8]; 8] = [
    b"String\nBool\nDecimal\nDate\nDateTime\n",
    b"\n\n\n\n\n",
    b"a\n\nlonger word\n\xff\n \n",
    b"a\nb\nc\nd\n",
    b"a\nb\nc\nd\ne",
    b"a\nb\nc\nd\ne\nf",
    b"a\nb\nc\nd\ne\n\n",
    b"",
];

/// All of them.
pub fn compare() -> Vec<Tally> {
    let mut tally = Tally::new("labels of rows of graphs, of damaged rows, word lists and lengths");
    for case in (0..SEEDS).flat_map(cases) {
        if let Call::Label {
            rows,
            names,
            words,
            row,
        } = case.call
        {
            one(&mut tally, &Sheet { rows, names }, &words, row as usize);
        }
    }
    let mut random = Random::new(SEED);
    for index in 0..GRAPHS {
        let mut graph = random_graph(&mut random);
        all_rows(&mut tally, &graph, LISTS[index % LISTS.len()]);
        damage(&mut graph, &mut random, index);
        all_rows(&mut tally, &graph, LISTS[index % 3]);
    }
    vec![tally]
}

/// The graph of a random good sheet, as the model lowers it.
fn random_graph(random: &mut Random) -> Sheet {
    let state = random_state(random);
    let sheet = state.sheet(Lent {
        rows: 10 * rows_used(&state.rows),
        names: names_used(&state.rows),
    });
    let graph = Sheet {
        rows: vec![0; 300],
        names: vec![0; 300],
    };
    lowering(&sheet, &graph, &[0; SCRATCH_LEAST]).graph
}

/// One number changed, the rows or the names cut short, or nothing but one number of each row changed.
fn damage(graph: &mut Sheet, random: &mut Random, index: usize) {
    let used = (10 * graph.rows[1] as usize).max(20);
    match index % 4 {
        0 => graph
            .names
            .truncate(random.below(graph.rows[2] as usize + 1)),
        1 => graph.rows.truncate(random.below(used + 1)),
        _ => damage_one(&mut graph.rows[..used], random),
    }
}

/// Every used row and two behind them, and numbers of rows that no sheet has.
fn all_rows(tally: &mut Tally, graph: &Sheet, words: &[u8]) {
    let used = graph.rows.get(1).map_or(0, |&used| used as usize).min(40);
    let far = [graph.rows.len() / 10, usize::MAX, usize::MAX / 10 + 1];
    for row in (0..used + 2).chain(far) {
        one(tally, graph, words, row);
    }
}

/// Number, by both calls, buffer, start and length are the model's, and so are the bytes there.
fn one(tally: &mut Tally, graph: &Sheet, words: &[u8], row: usize) {
    let model = label(&graph.rows, &graph.names, words, row);
    let ours = grapher::label(&graph.rows, &graph.names, words, row);
    tally.given(ours.number);
    let buffer = if ours.in_words == 1 {
        words
    } else {
        &graph.names
    };
    let part = buffer
        .get(ours.start..)
        .and_then(|rest| rest.get(..ours.length));
    let agreed = ours.number == model.number
        && ours.alone == model.number
        && ours.in_words == u32::from(model.in_words)
        && ours.start == model.at
        && part == Some(&model.text[..]);
    tally.count(if agreed {
        Ok(())
    } else {
        let ten = graph.rows.chunks(10).nth(row);
        Err(format!(
            "lubiksan_label of row {row}, {ten:?}: the model gives {model:?}, ours {ours:?}"
        ))
    });
}
