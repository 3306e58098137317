//! A schema file.

use std::fs::{File, OpenOptions};
use std::io::{self, Read};
use std::os::unix::fs::OpenOptionsExt;
use std::path::{Path, PathBuf};
use std::sync::OnceLock;

use lubiksan::{limits, NoTape};
use sha2::{Digest, Sha256};

use crate::document::{Document, Way, BYTE_ORDER_MARK};
use crate::failure::{is_standard_input, named, Failure};
use crate::xml::{line_and_column, Fault, Lines};

/// A schema file that was read.
#[derive(Debug)]
pub struct Source {
    path: PathBuf,
    document: Document,
    /// The length of the file in bytes.
    pub length: u64,
    sha256: OnceLock<[u8; 32]>,
    lines: OnceLock<Lines>,
}

impl Source {
    /// Reads a file.
    ///
    /// # Errors
    ///
    /// [`Failure`] where it can't be read, is no well-formed XML in UTF-8, or has a document type.
    pub fn load(path: &Path) -> Result<Source, Failure> {
        let bytes = bytes_of(path).map_err(|error| Failure::input(path, &error))?;
        Source::of(path, bytes)
    }

    /// The source of the bytes of the file `path`.
    ///
    /// # Errors
    ///
    /// [`Failure`] where they are no well-formed XML in UTF-8, or have a document type.
    pub fn of(path: &Path, bytes: Vec<u8>) -> Result<Source, Failure> {
        let length = bytes.len() as u64;
        let document = Document::of(bytes).map_err(|refused| {
            let place = match &refused.place {
                Some((text, at)) => placed(path, text, *at),
                None => format!("{}: ", named(path)),
            };
            Failure::Refused(place + &refused.words)
        })?;
        Ok(Source {
            path: path.to_owned(),
            document,
            length,
            sha256: OnceLock::new(),
            lines: OnceLock::new(),
        })
    }

    /// The path as it was given.
    pub fn path(&self) -> &Path {
        &self.path
    }

    /// The SHA-256 of the file: of its text, and of the byte order mark where it has one.
    pub fn sha256(&self) -> [u8; 32] {
        *self.sha256.get_or_init(|| {
            let text = self.document.text().as_bytes();
            let mut hash = Sha256::new();
            if self.length > text.len() as u64 {
                hash.update(BYTE_ORDER_MARK);
            }
            hash.update(text);
            hash.finalize().into()
        })
    }

    /// The events.
    pub fn document(&self) -> &Document {
        &self.document
    }

    /// Who read the text, in words.
    pub fn way(&self) -> String {
        let name = named(&self.path);
        let why = match self.document.way() {
            Way::Library(tape) => {
                let (events, marks) = (self.document.events().len(), tape.marks().len());
                return format!(
                    "{name}: read by the library from its text, {events} events in {marks} marks"
                );
            }
            Way::QuickXml(NoTape::Lengths) => format!("it is longer than {} bytes", limits::TEXT),
            Way::QuickXml(NoTape::Byte) => "it has a character above U+017F".to_owned(),
            Way::QuickXml(NoTape::ShortMarks) => {
                format!("its tags take over {} marks", limits::MARKS)
            }
            Way::QuickXml(why) => why.to_string(),
        };
        format!("{name}: read by quick-xml, since {why}")
    }

    /// The words with the place of a byte before them.
    pub fn at(&self, at: usize, words: &str) -> String {
        let text = self.document.text();
        let (line, column) = self.lines().line_and_column(text, at);
        format!("{}:{line}:{column}: {words}", named(&self.path))
    }

    /// The lines of the text, found once.
    pub fn lines(&self) -> &Lines {
        self.lines.get_or_init(|| Lines::of(self.document.text()))
    }

    /// The line of a byte, from 1.
    pub fn line(&self, at: usize) -> usize {
        self.lines().line(at)
    }

    /// A tag that fits into no piece.
    pub fn too_long(&self, fault: &Fault) -> Failure {
        Failure::Answered {
            lines: "read 1 0\n".to_owned(),
            words: self.at(fault.at, &fault.words),
        }
    }
}

/// `FILE:LINE:COLUMN: `
fn placed(path: &Path, text: &str, at: usize) -> String {
    let (line, column) = line_and_column(text, at);
    format!("{}:{line}:{column}: ", named(path))
}

/// The bytes of a file, or of standard input for `-`.
///
/// # Errors
///
/// The error of the machine.
pub fn bytes_of(path: &Path) -> io::Result<Vec<u8>> {
    if !is_standard_input(path) {
        return bytes_of_file(path);
    }
    let mut bytes = Vec::new();
    io::stdin().lock().read_to_end(&mut bytes)?;
    Ok(bytes)
}

/// The bytes of a file.
///
/// # Errors
///
/// The error of the machine.
pub fn bytes_of_file(path: &Path) -> io::Result<Vec<u8>> {
    let mut bytes = Vec::new();
    File::open(path)?.read_to_end(&mut bytes)?;
    Ok(bytes)
}

/// The bytes of a file that another file names: a regular file of this length, or nothing. A pipe is not waited for and a device
/// not read.
pub fn bytes_of_length(path: &Path, length: u64) -> Option<Vec<u8>> {
    let opened = OpenOptions::new()
        .read(true)
        .custom_flags(libc::O_NONBLOCK)
        .open(path);
    let file = opened.ok()?;
    let there = file.metadata().ok()?;
    if !there.is_file() || there.len() != length {
        return None;
    }
    let mut bytes = Vec::new();
    file.take(length).read_to_end(&mut bytes).ok()?;
    Some(bytes)
}
