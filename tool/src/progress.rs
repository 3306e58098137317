//! A progress bar on standard error, where that is a terminal and the work lasts.

use std::io::IsTerminal;
use std::sync::atomic::{AtomicBool, Ordering};
use std::time::{Duration, Instant};

use indicatif::{ProgressBar, ProgressDrawTarget, ProgressStyle};

const WORK_LASTS: Duration = Duration::from_millis(700);

/// A progress bar that shows itself after a while.
pub struct Progress {
    bar: Option<ProgressBar>,
    since: Instant,
    shown: AtomicBool,
}

impl Progress {
    /// A bar of this length, none where `quiet` is set or standard error is no terminal.
    pub fn new(length: usize, quiet: bool) -> Progress {
        let wanted = !quiet && std::io::stderr().is_terminal();
        let bar = wanted.then(|| {
            ProgressBar::with_draw_target(Some(length as u64), ProgressDrawTarget::hidden())
        });
        if let (Some(bar), Ok(style)) = (
            &bar,
            ProgressStyle::with_template("{bar:40} {pos}/{len} {wide_msg}"),
        ) {
            bar.set_style(style);
        }
        Progress {
            bar,
            since: Instant::now(),
            shown: AtomicBool::new(false),
        }
    }

    /// So much more is done.
    pub fn add(&self, done: usize) {
        let Some(bar) = &self.bar else {
            return;
        };
        if self.since.elapsed() > WORK_LASTS && !self.shown.swap(true, Ordering::Relaxed) {
            bar.set_draw_target(ProgressDrawTarget::stderr());
        }
        bar.inc(done as u64);
    }

    /// Does something that writes lines, with the bar out of the way.
    pub fn aside<T>(&self, write: impl FnOnce() -> T) -> T {
        match &self.bar {
            Some(bar) => bar.suspend(write),
            None => write(),
        }
    }

    /// Takes the bar away.
    pub fn end(&self) {
        if let Some(bar) = &self.bar {
            bar.finish_and_clear();
        }
    }
}
