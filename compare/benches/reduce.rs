//! Benchmark of `lubiksan_reduce` and `lubiksan_graph_form` on chains of types that run forwards and backwards, in the room of the graph, the
//! least of 2,001 times each; and on chains of types whose names all stand in one bucket of the index of names. Made by `.ci/archive`; run by `cargo bench --features ours --bench reduce`.

use std::hint::black_box;
use std::time::{Duration, Instant};

use compare::crowded::crowded;
use compare::paper::sheet::{Row, Sheet};
use compare::reduce::call::{form, reduce};
use compare::reduce::graphs::{chain, chain_of, exact, sheet_of};

const ROUNDS: usize = 2_001;

fn main() {
    for rows in [200, 1_000, 4_095] {
        // Row 0, the namespace and the root, and two rows for each type.
        let count = (rows - 3) / 2;
        speed(rows, "forwards", &chain(count, false));
        speed(rows, "backwards", &chain(count, true));
    }
    for count in [600, 2_000] {
        let mut names = crowded(count + 1);
        speed(2 * count, "names of one bucket", &chain_of(&names, false));
        names.sort();
        let falling = "names of one bucket, entered in falling order";
        speed(2 * count, falling, &chain_of(&names, true));
    }
}

/// The least of the times of `run`, in microseconds.
fn least(mut run: impl FnMut()) -> f64 {
    let timed = |run: &mut dyn FnMut()| {
        let start = Instant::now();
        run();
        start.elapsed()
    };
    let least = (0..ROUNDS).map(|_| timed(&mut run)).min();
    least.unwrap_or(Duration::MAX).as_secs_f64() * 1e6
}

fn speed(height: usize, way: &str, rows: &[Row]) {
    let source = sheet_of(rows, exact(rows));
    let mut target = Sheet {
        rows: vec![0; source.rows.len()],
        names: vec![0; source.names.len()],
    };
    let whole = least(|| assert_eq!(reduce(black_box(&source), &mut target).number, 0));
    assert_eq!(target, source, "a chain is reached whole");
    let formed = least(|| assert_eq!(form(black_box(&source)).number, 0));
    let used = source.rows[1] as f64;
    println!(
        "about {height} rows, {way}: {whole:.1} us, {:.1} ns a row; the form alone {formed:.1} us, {:.1} ns a row",
        whole * 1e3 / used,
        formed * 1e3 / used
    );
}
