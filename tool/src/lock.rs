//! Locks between processes: one on a shelf, one on each sheet that is read on. They are held as long as a file is open, so that
//! a killed process holds none.

use std::fs::{self, File, OpenOptions, TryLockError};
use std::os::unix::ffi::OsStrExt;
use std::os::unix::fs::MetadataExt;
use std::path::{Path, PathBuf};
use std::thread;
use std::time::{Duration, Instant};

use sha2::{Digest, Sha256};

use crate::failure::{named, Failure};
use crate::interrupt;
use crate::output::folder_of;

const SHELF: &str = ".lubiksan.lock";

/// A lock that is held until it is dropped.
#[derive(Debug)]
pub struct Lock {
    _file: File,
    /// The file of a sheet's lock, which goes with it.
    goes: Option<PathBuf>,
}

impl Drop for Lock {
    fn drop(&mut self) {
        if let Some(path) = &self.goes {
            // Removed while the lock is held: who opened the file before finds it gone and takes a new one.
            let _ = fs::remove_file(path);
        }
    }
}

/// The lock on the shelf of a folder, which one process holds at a time.
///
/// # Errors
///
/// [`Failure::Machine`] where another process holds it for longer than `wait`.
pub fn on_shelf(folder: &Path, wait: Duration) -> Result<Lock, Failure> {
    let path = folder.join(SHELF);
    let file = taken(&path, folder, "shelf", wait)?;
    Ok(Lock {
        _file: file,
        goes: None,
    })
}

/// The lock on a sheet. The sheet itself is replaced by each store, so the lock is on a file beside it, whose name has a part of
/// the SHA-256 of the sheet's: any name of a sheet makes one that is not too long.
///
/// # Errors
///
/// [`Failure::Machine`] where another process holds it for longer than `wait`.
pub fn on_sheet(sheet: &Path, wait: Duration) -> Result<Lock, Failure> {
    let followed = fs::canonicalize(sheet);
    let target = followed.as_deref().unwrap_or(sheet);
    let name = target.file_name().unwrap_or_default();
    let sum: String = Sha256::digest(name.as_bytes())
        .iter()
        .take(8)
        .map(|byte| format!("{byte:02x}"))
        .collect();
    let path = folder_of(target).join(format!(".lubiksan-{sum}.lock"));
    let file = taken(&path, sheet, "sheet", wait)?;
    Ok(Lock {
        _file: file,
        goes: Some(path),
    })
}

/// The file at `path`, locked; `what` and its kind are what the words name.
fn taken(path: &Path, what: &Path, kind: &str, wait: Duration) -> Result<File, Failure> {
    let until = Instant::now().checked_add(wait);
    loop {
        let opened = OpenOptions::new()
            .write(true)
            .create(true)
            .truncate(false)
            .open(path);
        let file = opened.map_err(|error| Failure::output(what, &error))?;
        match file.try_lock() {
            Ok(()) if is_at(&file, path) => return Ok(file),
            Ok(()) => {}
            Err(TryLockError::Error(error)) => return Err(Failure::output(what, &error)),
            Err(TryLockError::WouldBlock) => a_while(what, kind, until)?,
        }
    }
}

/// The open file still is the one at `path`.
fn is_at(file: &File, path: &Path) -> bool {
    let same = |open: fs::Metadata, there: fs::Metadata| {
        (open.dev(), open.ino()) == (there.dev(), there.ino())
    };
    let both = file.metadata().ok().zip(fs::metadata(path).ok());
    both.is_some_and(|(open, there)| same(open, there))
}

/// Waits a little for another process, as long as there is time.
fn a_while(what: &Path, kind: &str, until: Option<Instant>) -> Result<(), Failure> {
    interrupt::stop_if_asked()?;
    if until.is_some_and(|until| Instant::now() >= until) {
        let words = format!("{}: another process is at work on this {kind}", named(what));
        return Err(Failure::Machine(words));
    }
    thread::sleep(Duration::from_millis(20));
    Ok(())
}
