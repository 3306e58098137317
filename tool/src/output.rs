//! Files that are whole or as they were.

use std::fs::{self, File, OpenOptions};
use std::io::{self, ErrorKind, Write};
use std::os::unix::fs::MetadataExt;
use std::path::{Path, PathBuf};

use crate::failure::Failure;

const BEFORE: &str = ".lubiksan-";
const BEHIND: &str = ".tmp";

/// Writes `bytes` to a file, or to standard output where none is named. A file is whole or as it was, its mode is
/// kept; a device, pipe or link is written through.
///
/// # Errors
///
/// [`Failure::Machine`], or [`Failure::Pipe`] where what reads the output has gone.
pub fn write_output(path: Option<&Path>, bytes: &[u8]) -> Result<(), Failure> {
    let Some(path) = path else {
        return write_standard(bytes);
    };
    match target_of(path) {
        Some(file) => replace_file(&file, bytes),
        None => write_through(path, bytes).map_err(|error| Failure::output(path, &error)),
    }
}

fn write_standard(bytes: &[u8]) -> Result<(), Failure> {
    let mut out = io::stdout().lock();
    let written = out.write_all(bytes).and_then(|()| out.flush());
    written.map_err(|error| Failure::output(Path::new("standard output"), &error))
}

/// The regular file that is to be replaced, links followed; none where the path is to be written through.
fn target_of(path: &Path) -> Option<PathBuf> {
    let Ok(there) = fs::symlink_metadata(path) else {
        return Some(path.to_owned());
    };
    if !there.is_symlink() {
        return there.is_file().then(|| path.to_owned());
    }
    let target = fs::canonicalize(path).ok()?;
    fs::metadata(&target)
        .is_ok_and(|found| found.is_file())
        .then_some(target)
}

fn write_through(path: &Path, bytes: &[u8]) -> io::Result<()> {
    let mut file = OpenOptions::new()
        .write(true)
        .create(true)
        .truncate(true)
        .open(path)?;
    file.write_all(bytes)?;
    file.flush()
}

/// Replaces a file: a temporary file in the same folder is written, synced and renamed, and the folder synced. The
/// mode of a file that was there is kept.
///
/// # Errors
///
/// [`Failure::Machine`]; the file is as it was, unless only the last sync failed.
pub fn replace_file(path: &Path, bytes: &[u8]) -> Result<(), Failure> {
    replaced(path, bytes).map_err(|error| Failure::output(path, &error))
}

fn replaced(path: &Path, bytes: &[u8]) -> io::Result<()> {
    let mode = match OpenOptions::new().write(true).open(path) {
        Ok(there) => Some(there.metadata()?.permissions()),
        Err(error) if error.kind() == ErrorKind::NotFound => None,
        Err(error) => return Err(error),
    };
    let folder = folder_of(path);
    let (mut file, temporary) = temporary_in(&folder)?;
    let written = (|| {
        file.write_all(bytes)?;
        if let Some(mode) = mode {
            file.set_permissions(mode)?;
        }
        file.sync_all()?;
        fs::rename(&temporary, path)
    })();
    if written.is_err() {
        let _ = fs::remove_file(&temporary);
    }
    written?;
    File::open(&folder)?.sync_all()
}

/// The folder of a file.
pub(crate) fn folder_of(path: &Path) -> PathBuf {
    match path.parent() {
        Some(folder) if !folder.as_os_str().is_empty() => folder.to_owned(),
        _ => PathBuf::from("."),
    }
}

/// A new temporary file, locked as long as it is open, so that no one else takes it for one that was left behind.
fn temporary_in(folder: &Path) -> io::Result<(File, PathBuf)> {
    let mut number = 0u64;
    loop {
        let path = folder.join(format!("{BEFORE}{}-{number}{BEHIND}", std::process::id()));
        number += 1;
        let file = match OpenOptions::new().write(true).create_new(true).open(&path) {
            Ok(file) => file,
            Err(error) if error.kind() == ErrorKind::AlreadyExists => continue,
            Err(error) => return Err(error),
        };
        // Where the file system has no locks no one can hold one either, and nothing is taken for left behind.
        let _ = file.lock();
        if file.metadata()?.nlink() > 0 {
            return Ok((file, path));
        }
    }
}

/// Removes the temporary files that killed processes left in a folder: those that no process holds a lock on.
pub fn remove_left_behind(folder: &Path) {
    let Ok(entries) = fs::read_dir(folder) else {
        return;
    };
    for entry in entries.flatten() {
        let name = entry.file_name();
        let name = name.to_string_lossy();
        if name.starts_with(BEFORE) && name.ends_with(BEHIND) {
            remove_if_left(&entry.path());
        }
    }
}

fn remove_if_left(path: &Path) {
    let Ok(file) = OpenOptions::new().write(true).open(path) else {
        return;
    };
    if file.try_lock().is_ok() {
        let _ = fs::remove_file(path);
    }
}

/// Removes what was left behind beside a file.
pub fn remove_left_beside(path: &Path) {
    remove_left_behind(&folder_of(path));
}
