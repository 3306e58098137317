//! How a command ends when it does not succeed.

use std::io::{self, ErrorKind, Write};
use std::path::Path;

pub use lubiksan_xml::words::{escaped, escaped_but, quoted};

/// Why a command stopped.
#[derive(Clone, Debug, PartialEq, Eq)]
pub enum Failure {
    /// The input is refused: the words.
    Refused(String),
    /// A call of the library refused the input.
    Answered {
        /// What the format `rows` prints for it.
        lines: String,
        /// The words.
        words: String,
    },
    /// Wrong use: the words.
    Usage(String),
    /// The machine: the words. Trying again may help.
    Machine(String),
    /// What reads the output has gone; nothing is to be said.
    Pipe,
    /// Two schemas differ, and the exit status was asked for; nothing more is to be said.
    Differ(u8),
}

impl Failure {
    /// The exit status.
    pub fn status(&self) -> u8 {
        match self {
            Failure::Pipe => 0,
            Failure::Differ(status) => *status,
            Failure::Refused(_) | Failure::Answered { .. } => 1,
            Failure::Usage(_) => 2,
            Failure::Machine(_) => 3,
        }
    }

    /// The words, none for a broken pipe.
    pub fn words(&self) -> &str {
        match self {
            Failure::Pipe | Failure::Differ(_) => "",
            Failure::Refused(words) | Failure::Usage(words) | Failure::Machine(words) => words,
            Failure::Answered { words, .. } => words,
        }
    }

    /// Says the words on standard error.
    pub fn say(&self) {
        if !matches!(self, Failure::Pipe | Failure::Differ(_)) {
            say(self.words());
        }
    }

    /// A file could not be read. What trying again can't help is refused; anything else is the machine's.
    pub fn input(file: &Path, error: &io::Error) -> Failure {
        Failure::of_file(file, "read", "file", error)
    }

    /// A file could not be written. What trying again can't help is refused; anything else is the machine's.
    pub fn output(file: &Path, error: &io::Error) -> Failure {
        match error.kind() {
            ErrorKind::BrokenPipe => Failure::Pipe,
            _ => Failure::of_file(file, "written", "folder", error),
        }
    }

    /// `absent` is what is not there where the machine finds nothing.
    fn of_file(file: &Path, done: &str, absent: &str, error: &io::Error) -> Failure {
        let name = named(file);
        let words = match error.kind() {
            ErrorKind::NotFound | ErrorKind::NotADirectory => format!("there is no such {absent}"),
            ErrorKind::IsADirectory => "it is a folder, not a file".to_owned(),
            ErrorKind::AlreadyExists => "it is a file, not a folder".to_owned(),
            ErrorKind::InvalidFilename => "its name is too long".to_owned(),
            _ if error.raw_os_error() == Some(libc::ELOOP) => {
                "it is a link that leads to itself".to_owned()
            }
            _ => return Failure::Machine(format!("{name}: it can't be {done}: {error}")),
        };
        Failure::Refused(format!("{name}: {words}"))
    }
}

/// Where what reads the output has gone, the rest is done all the same, so that the exit status tells of it.
///
/// # Errors
///
/// Any other failure.
pub fn though_unread(written: Result<(), Failure>) -> Result<(), Failure> {
    match written {
        Err(Failure::Pipe) => Ok(()),
        other => other,
    }
}

/// The name of a file as it is shown: on one line whatever it holds.
pub fn named(file: &Path) -> String {
    match is_standard_input(file) {
        true => "standard input".to_owned(),
        false => escaped(&file.to_string_lossy()),
    }
}

/// `-` names standard input.
pub fn is_standard_input(file: &Path) -> bool {
    file.as_os_str() == "-"
}

/// Writes a line to standard error. Where that fails there is no one to tell.
pub fn say(line: &str) {
    let _ = writeln!(io::stderr(), "{line}");
}
