//! Benchmark of `lubiksan_columns` and `lubiksan_rows` against a copy of as many bytes, in one run, the least of 2,001 times each.
//! Made by `.ci/archive`; run by `cargo bench --features ours --bench columns`.

use std::hint::black_box;
use std::time::{Duration, Instant};

use compare::columns::{to_columns, to_rows};
use compare::random::Random;

const ROUNDS: usize = 2_001;

fn main() {
    [100, 1_000, 4_096].into_iter().for_each(speed);
}

/// The least of the times of `run`, in microseconds.
fn least(mut run: impl FnMut()) -> f64 {
    let timed = |run: &mut dyn FnMut()| {
        let start = Instant::now();
        run();
        start.elapsed()
    };
    let least = (0..ROUNDS).map(|_| timed(&mut run)).min();
    least.unwrap_or(Duration::MAX).as_secs_f64() * 1e6
}

fn speed(height: usize) {
    let mut random = Random::new(10);
    let rows: Vec<u32> = (0..10 * height).map(|_| random.next_u64() as u32).collect();
    let (mut columns, mut again) = (vec![0; rows.len()], vec![0; rows.len()]);
    let forth = least(|| assert_eq!(to_columns(black_box(&rows), &mut columns).0, 0));
    let back = least(|| assert_eq!(to_rows(black_box(&columns), &mut again).0, 0));
    let copy = least(|| again.copy_from_slice(black_box(&rows)));
    println!(
        "{height} rows: to columns {forth:.2} us, back {back:.2} us, a copy {copy:.2} us: {:.1} and {:.1} times",
        forth / copy,
        back / copy
    );
}
