//! Many schemas side by side, a stored sheet for each. What was done is on disk after each piece, so a shelf that was
//! stopped at any moment goes on.

use std::collections::HashMap;
use std::ffi::OsStr;
use std::fs;
use std::path::{Path, PathBuf};
use std::sync::atomic::{AtomicUsize, Ordering};
use std::sync::mpsc::{self, Sender};
use std::thread;

use crate::args::{Command, Shelf};
use crate::commands::{advance, say_way, warn};
use crate::failure::{named, say, though_unread, Failure};
use crate::formats::plural;
use crate::interrupt;
use crate::light;
use crate::lock;
use crate::losses;
use crate::notkept::{self, NotKept};
use crate::output::{remove_left_behind, write_output};
use crate::progress::Progress;
use crate::reading::lowered;
use crate::source::Source;
use crate::stored::{self, Begin};

/// A schema and where its sheet is stored.
struct Job {
    file: PathBuf,
    sheet: PathBuf,
}

/// Runs the shelf.
///
/// # Errors
///
/// [`Failure`]: of the shelf as a whole, or that files were refused or the machine failed on some.
pub fn run(command: &Command, shelf: &Shelf) -> Result<(), Failure> {
    let jobs = jobs(shelf)?;
    interrupt::watch();
    fs::create_dir_all(&shelf.folder).map_err(|error| Failure::output(&shelf.folder, &error))?;
    let _lock = lock::on_shelf(&shelf.folder, shelf.wait)?;
    remove_left_behind(&shelf.folder);
    let progress = Progress::new(jobs.len(), command.quiet);
    let ends = side_by_side(command, shelf, &jobs, &progress);
    progress.end();
    let ends = ends?;
    if !command.quiet {
        say_not_kept(&ends);
        say_light(&ends);
    }
    ended(&ends)
}

/// The jobs; two files of one stem are refused.
fn jobs(shelf: &Shelf) -> Result<Vec<Job>, Failure> {
    let mut stems: HashMap<&OsStr, &Path> = HashMap::new();
    let mut jobs = Vec::new();
    for file in &shelf.files {
        let Some(stem) = file.file_stem() else {
            return Err(Failure::Refused(format!("{}: it is no file", named(file))));
        };
        if let Some(other) = stems.insert(stem, file) {
            let words = format!(
                "{}: it would have the sheet of {}",
                named(file),
                named(other)
            );
            return Err(Failure::Refused(words));
        }
        let mut name = stem.to_owned();
        name.push(".sheet");
        jobs.push(Job {
            file: file.clone(),
            sheet: shelf.folder.join(name),
        });
    }
    Ok(jobs)
}

/// What was done of one file: its line, and how many places the graph does not keep.
struct Done {
    line: String,
    not_kept: usize,
}

/// How the work on one file ended.
type End = Result<Done, Failure>;

/// How it ended, and how many finished simple types its sheet has that lowering refuses.
struct Ended {
    end: End,
    refused: usize,
}

/// Runs the jobs on several threads and prints a line for each in their order.
fn side_by_side(
    command: &Command,
    shelf: &Shelf,
    jobs: &[Job],
    progress: &Progress,
) -> Result<Vec<Ended>, Failure> {
    let cores = thread::available_parallelism().map_or(1, usize::from);
    let wanted = if shelf.jobs == 0 { cores } else { shelf.jobs };
    let next = AtomicUsize::new(0);
    let (sender, ends) = mpsc::channel();
    thread::scope(|scope| {
        let mut started = 0;
        for _ in 0..wanted.min(jobs.len()) {
            let (sender, next) = (sender.clone(), &next);
            let job = move || work(command, shelf, jobs, next, &sender);
            match thread::Builder::new().spawn_scoped(scope, job) {
                Ok(_) => started += 1,
                // Where the machine starts no more threads, those that there are do the work.
                Err(_) => break,
            }
        }
        if started == 0 {
            work(command, shelf, jobs, &next, &sender);
        }
        drop(sender);
        in_order(jobs.len(), ends.iter(), progress)
    })
}

/// Takes jobs until there is none left.
fn work(
    command: &Command,
    shelf: &Shelf,
    jobs: &[Job],
    next: &AtomicUsize,
    ends: &Sender<(usize, Ended)>,
) {
    loop {
        let index = next.fetch_add(1, Ordering::Relaxed);
        let Some(job) = jobs.get(index) else {
            return;
        };
        if ends.send((index, one(command, shelf, job))).is_err() {
            return;
        }
    }
}

/// Prints the lines in the order of the jobs, as soon as those before are there.
fn in_order(
    count: usize,
    ends: impl Iterator<Item = (usize, Ended)>,
    progress: &Progress,
) -> Result<Vec<Ended>, Failure> {
    let mut waiting: HashMap<usize, Ended> = HashMap::new();
    let mut printed = Vec::with_capacity(count);
    for (index, end) in ends {
        progress.add(1);
        waiting.insert(index, end);
        while let Some(end) = waiting.remove(&printed.len()) {
            let mut line = match &end.end {
                Ok(done) => done.line.clone(),
                Err(failure) => failure.words().replace('\n', "; "),
            };
            if end.refused > 0 {
                line += &format!(", {}", light::counted(end.refused));
            }
            let written = progress.aside(|| write_output(None, format!("{line}\n").as_bytes()));
            though_unread(written)?;
            printed.push(end);
        }
    }
    Ok(printed)
}

/// One schema: read on, stored after each piece, lowered.
fn one(command: &Command, shelf: &Shelf, job: &Job) -> Ended {
    let mut refused = 0;
    let end = read_and_lowered(command, shelf, job, &mut refused);
    Ended { end, refused }
}

fn read_and_lowered(command: &Command, shelf: &Shelf, job: &Job, refused: &mut usize) -> End {
    let of_job = |failure: Failure| match failure {
        Failure::Machine(words) if interrupt::asked() => {
            Failure::Machine(format!("{}: {words}", named(&job.file)))
        }
        other => other,
    };
    interrupt::stop_if_asked().map_err(of_job)?;
    let source = Source::load(&job.file)?;
    say_way(command, &source);
    let begin = Begin {
        restart: shelf.restart,
        read_as: command.read_as,
    };
    let _lock = lock::on_sheet(&job.sheet, shelf.wait).map_err(of_job)?;
    let mut stored = stored::resumed(&job.sheet, &source, begin)?;
    let quiet = Progress::new(0, true);
    let read = advance(&source, &job.sheet, &mut stored, usize::MAX, &quiet);
    *refused = stored.sheet.refused_types();
    read.map_err(of_job)?;
    let graph = lowered(&job.file, Some(&source), &stored.sheet)?;
    warn(command, losses::lines(&source, &stored.sheet))?;
    let found = NotKept::of(&source, &stored.sheet);
    let not_kept = found.places.len();
    if command.strict && not_kept > 0 {
        return Err(Failure::Refused(found.counted(&source)));
    }
    let counted = |count: usize, word: &str| format!("{count} {}", plural(count as u64, word));
    let mut line = format!(
        "{}: {}, {}, {}",
        named(&job.file),
        counted(stored.sheet.events_done(), "event"),
        counted(graph.roots().count(), "root"),
        counted(graph.types().count(), "type")
    );
    if not_kept > 0 {
        line += &format!(", {} not kept", counted(not_kept, "place"));
    }
    Ok(Done { line, not_kept })
}

/// What the graphs of all files do not keep, in one line.
fn say_not_kept(ends: &[Ended]) {
    let done = ends.iter().filter_map(|end| end.end.as_ref().ok());
    let counts = done.map(|done| done.not_kept);
    let counts: Vec<usize> = counts.filter(|&count| count > 0).collect();
    if !counts.is_empty() {
        let told = notkept::told(counts.iter().sum());
        say(&format!(
            "{told}: of {} of {} files",
            counts.len(),
            ends.len()
        ));
    }
}

/// The light over all sheets, in one line.
fn say_light(ends: &[Ended]) {
    let red = ends
        .iter()
        .map(|end| end.refused)
        .filter(|&count| count > 0);
    let red: Vec<usize> = red.collect();
    if !red.is_empty() {
        let told = light::counted(red.iter().sum());
        say(&format!("{told}: of {} of {} files", red.len(), ends.len()));
    }
}

/// The end of the shelf: the machine's failures before the refusals.
fn ended(ends: &[Ended]) -> Result<(), Failure> {
    let count = |status: u8| {
        ends.iter()
            .filter(|end| matches!(&end.end, Err(f) if f.status() == status))
            .count()
    };
    let (machine, refused, all) = (count(3), count(1), ends.len());
    if machine > 0 {
        return Err(Failure::Machine(format!(
            "not done: {machine} of {all} files"
        )));
    }
    if refused > 0 {
        return Err(Failure::Refused(format!(
            "refused: {refused} of {all} files"
        )));
    }
    Ok(())
}
