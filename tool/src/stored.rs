//! Stored sheets. The file, all numbers little-endian:
//!
//! | Bytes | |
//! |---|---|
//! | 8 | `lubiksan` |
//! | 4 | version, 3 |
//! | 4, 4, 4 | numbers of the sheet's rows, bytes of its names, bytes of the source's path |
//! | 8, 8 | the source's length in bytes, its events |
//! | 4, 4 | its global elements, its named types |
//! | 4 | its places that the graph does not keep |
//! | 4, 4 | numbers and bytes that are stored: those behind are all zero. The numbers are those of whole rows, two at least |
//! | 4 | bytes of the packed part |
//! | 32 | the source's SHA-256 |
//! | 32 | the SHA-256 of all other bytes of this file |
//! | | the path |
//! | | the stored rows and names, packed as [`crate::packed`] says |
//!
//! Two versions of before are still read. In version 2 the length of the packed part is not there, and behind the path stand the
//! stored numbers (4 bytes each), not only of whole rows, and the stored bytes of names. In version 1 the three numbers from
//! the places on are not there either, and all numbers and bytes are stored. Sheets of all versions that were stored before there was a
//! count of refused types have 0 for it; it is filled in as they are loaded, and stored at the next write.

use std::ffi::OsStr;
use std::os::unix::ffi::OsStrExt;
use std::path::{Path, PathBuf};

use lubiksan::{limits, ReadAs, SchemaSheet};
use sha2::{Digest, Sha256};

use crate::failure::{named, Failure};
use crate::losses::{self, Counts};
use crate::notkept::NotKept;
use crate::output::replace_file;
use crate::packed::{packed, unpacked, Effort};
use crate::source::{bytes_of, bytes_of_file, bytes_of_length, Source};

const MAGIC: &[u8; 8] = b"lubiksan";
const VERSION: u32 = 3;
/// A version of before: what is used is stored as it is.
const NOT_PACKED: u32 = 2;
/// The first version: everything is stored, and what the graph does not keep is not known.
const ALL_STORED: u32 = 1;
/// The length of the header: the SHA-256 of the file is its last part.
const HEADER: usize = 128;
const HEADER_NOT_PACKED: usize = 124;
const HEADER_OF_ALL_STORED: usize = 112;
/// The length of a SHA-256.
const SUM: usize = 32;

/// What a stored sheet says of its source.
#[derive(Clone, Debug, PartialEq, Eq)]
pub struct About {
    /// The path as it was given.
    pub path: PathBuf,
    /// Its length in bytes.
    pub length: u64,
    /// Its SHA-256.
    pub sha256: [u8; 32],
    /// Its events.
    pub events: u64,
    /// Its global elements and named types.
    pub counts: Counts,
    /// Its places that the graph does not keep; none where a version of before did not count them.
    pub not_kept: Option<u32>,
}

/// A stored sheet.
#[derive(Debug)]
pub struct Stored {
    /// The sheet.
    pub sheet: SchemaSheet<'static>,
    /// What it was read from.
    pub about: About,
    /// It was stored before there was a count of refused types, which was filled in as it was loaded.
    pub converted: bool,
}

impl About {
    /// What is said of this source, read in this way.
    pub fn of(source: &Source, read_as: ReadAs) -> About {
        let not_kept = NotKept::count(source, read_as);
        About {
            path: source.path().to_owned(),
            length: source.length,
            sha256: source.sha256(),
            events: source.document().events().len() as u64,
            counts: losses::counts(source.document()),
            not_kept: u32::try_from(not_kept).ok(),
        }
    }

    /// The file that the sheet was read from, where it is still there as it was.
    pub fn source(&self) -> Option<Source> {
        let bytes = bytes_of_length(&self.path, self.length)?;
        let source = Source::of(&self.path, bytes).ok()?;
        let same = source.length == self.length && source.sha256() == self.sha256;
        same.then_some(source)
    }
}

impl Stored {
    /// All events of the source are done.
    pub fn is_whole(&self) -> bool {
        self.sheet.events_done() as u64 == self.about.events
    }

    /// `417 of 2071 events`
    pub fn progress(&self) -> String {
        format!(
            "{} of {} events",
            self.sheet.events_done(),
            self.about.events
        )
    }
}

/// Do these bytes start as a stored sheet does?
pub fn is_stored(bytes: &[u8]) -> bool {
    bytes.starts_with(MAGIC)
}

/// Reads a stored sheet.
///
/// # Errors
///
/// [`Failure`] where it can't be read, is cut short, altered, of another version or not good.
pub fn load(path: &Path) -> Result<Stored, Failure> {
    let bytes = bytes_of(path).map_err(|error| Failure::input(path, &error))?;
    of_bytes(path, &bytes)
}

/// The stored sheet of the bytes of a file.
///
/// # Errors
///
/// [`Failure`] in words, with the path before them.
pub fn of_bytes(path: &Path, bytes: &[u8]) -> Result<Stored, Failure> {
    let refused = |words: String| Failure::Refused(format!("{}: {words}", named(path)));
    let mut stored = decoded(bytes).map_err(refused)?;
    let counted = stored.sheet.refused_types();
    stored
        .sheet
        .convert()
        .map_err(|refusal| refused(refusal.to_string()))?;
    stored.converted = stored.sheet.refused_types() != counted;
    if stored.sheet.events_done() as u64 > stored.about.events {
        return Err(refused(
            "the sheet has more events done than its source has".to_owned(),
        ));
    }
    Ok(stored)
}

/// Reads the bytes of a file in order.
pub(crate) struct Cursor<'b>(pub(crate) &'b [u8]);

impl<'b> Cursor<'b> {
    pub(crate) fn take(&mut self, count: usize) -> Option<&'b [u8]> {
        let (taken, rest) = self.0.split_at_checked(count)?;
        self.0 = rest;
        Some(taken)
    }

    pub(crate) fn u32(&mut self) -> Option<u32> {
        Some(u32::from_le_bytes(self.take(4)?.try_into().ok()?))
    }

    pub(crate) fn length(&mut self) -> Option<usize> {
        Some(self.u32()? as usize)
    }

    pub(crate) fn u64(&mut self) -> Option<u64> {
        Some(u64::from_le_bytes(self.take(8)?.try_into().ok()?))
    }

    pub(crate) fn sum(&mut self) -> Option<[u8; SUM]> {
        self.take(SUM)?.try_into().ok()
    }
}

/// The header.
struct Header {
    /// Its length in bytes.
    length: usize,
    rows: usize,
    names: usize,
    path: usize,
    stored_rows: usize,
    stored_names: usize,
    /// The length of the packed part, in the version that has one.
    packed: Option<usize>,
    about: About,
    sum: [u8; SUM],
}

impl Header {
    /// The header behind magic and version.
    fn of(version: u32, bytes: &mut Cursor<'_>) -> Option<Header> {
        let (rows, names, path) = (bytes.length()?, bytes.length()?, bytes.length()?);
        let (length, events) = (bytes.u64()?, bytes.u64()?);
        let counts = Counts {
            elements: bytes.length()?,
            types: bytes.length()?,
        };
        let (not_kept, stored_rows, stored_names) = match version {
            ALL_STORED => (None, rows, names),
            _ => {
                let not_kept = Some(bytes.u32()?).filter(|&count| count != u32::MAX);
                (not_kept, bytes.length()?, bytes.length()?)
            }
        };
        let packed = match version {
            VERSION => Some(bytes.length()?),
            _ => None,
        };
        let about = About {
            path: PathBuf::new(),
            length,
            sha256: bytes.sum()?,
            events,
            counts,
            not_kept,
        };
        Some(Header {
            length: header_length(version),
            rows,
            names,
            path,
            stored_rows,
            stored_names,
            packed,
            about,
            sum: bytes.sum()?,
        })
    }

    /// The length of the file in bytes.
    fn file_length(&self) -> usize {
        let contents = self
            .packed
            .unwrap_or(4 * self.stored_rows + self.stored_names);
        self.length + self.path + contents
    }

    /// No more is stored than the sheet has, and it is not larger than sheets are.
    fn is_a_sheets(&self) -> bool {
        self.stored_rows <= self.rows
            && self.stored_names <= self.names
            && self.rows <= limits::ROW_NUMBERS
            && self.names <= limits::NAMES
    }
}

fn header_length(version: u32) -> usize {
    match version {
        ALL_STORED => HEADER_OF_ALL_STORED,
        NOT_PACKED => HEADER_NOT_PACKED,
        _ => HEADER,
    }
}

fn decoded(bytes: &[u8]) -> Result<Stored, String> {
    let mut cursor = Cursor(bytes);
    if cursor.take(MAGIC.len()) != Some(MAGIC) {
        return Err("it is no stored sheet".to_owned());
    }
    let short = || {
        format!(
            "the stored sheet is cut short: it has {} bytes",
            bytes.len()
        )
    };
    let version = cursor.u32().ok_or_else(short)?;
    if !matches!(version, ALL_STORED..=VERSION) {
        return Err(format!(
            "the stored sheet has version {version}, only versions {ALL_STORED} to {VERSION} are read"
        ));
    }
    let header = Header::of(version, &mut cursor).ok_or_else(short)?;
    if bytes.len() != header.file_length() {
        let (there, said) = (bytes.len(), header.file_length());
        return Err(format!("the stored sheet is cut short or altered: it has {there} bytes where its header says {said}"));
    }
    if sum_of(bytes, header.length) != header.sum || !header.is_a_sheets() {
        return Err(
            "the stored sheet was altered: its SHA-256 is not the one in its header".to_owned(),
        );
    }
    behind_header(header, cursor)
        .ok_or_else(|| "the stored sheet does not hold what its header says".to_owned())
}

/// The path and the two buffers, with zeros behind what is stored.
fn behind_header(header: Header, mut bytes: Cursor<'_>) -> Option<Stored> {
    let path = PathBuf::from(OsStr::from_bytes(bytes.take(header.path)?));
    let (mut rows, mut names) = match header.packed {
        Some(_) => unpacked(bytes.0, header.stored_rows, header.stored_names)?,
        None => as_they_are(bytes, header.stored_rows, header.stored_names)?,
    };
    rows.resize(header.rows, 0);
    names.resize(header.names, 0);
    let about = About {
        path,
        ..header.about
    };
    Some(Stored {
        sheet: SchemaSheet::from_buffers(rows, names),
        about,
        converted: false,
    })
}

/// So many numbers and bytes that are not packed.
fn as_they_are(mut bytes: Cursor<'_>, rows: usize, names: usize) -> Option<(Vec<u32>, Vec<u8>)> {
    let numbers = bytes.take(4 * rows)?.chunks_exact(4);
    let rows = numbers.filter_map(|four| Some(u32::from_le_bytes(four.try_into().ok()?)));
    Some((rows.collect(), bytes.take(names)?.to_vec()))
}

/// The SHA-256 of a stored file without that at the end of its header of this length.
pub(crate) fn sum_of(bytes: &[u8], header: usize) -> [u8; SUM] {
    let mut hash = Sha256::new();
    hash.update(bytes.get(..header - SUM).unwrap_or_default());
    hash.update(bytes.get(header..).unwrap_or_default());
    hash.finalize().into()
}

/// Puts the SHA-256 of a stored file at the end of its header of this length.
pub(crate) fn put_sum(bytes: &mut [u8], header: usize) {
    let sum = sum_of(bytes, header);
    if let Some(place) = bytes.get_mut(header - SUM..header) {
        place.copy_from_slice(&sum);
    }
}

/// What stands before the zeros at the end.
fn used<T: Default + PartialEq>(all: &[T]) -> &[T] {
    let last = all.iter().rposition(|item| *item != T::default());
    all.get(..last.map_or(0, |last| last + 1))
        .unwrap_or_default()
}

/// The rows up to the last that is not all zero, two at least.
fn used_rows(all: &[u32]) -> Vec<u32> {
    let mut rows = used(all).to_vec();
    let whole = rows.len().next_multiple_of(limits::ROW);
    rows.resize(whole.max(2 * limits::ROW), 0);
    rows
}

/// The bytes of a stored sheet.
///
/// # Errors
///
/// [`Failure::Machine`] where it can't be packed.
pub fn encoded(sheet: &SchemaSheet<'_>, about: &About) -> Result<Vec<u8>, Failure> {
    let path = about.path.as_os_str().as_bytes();
    let (rows, names) = (used_rows(sheet.rows()), used(sheet.names()));
    let packed = packed(&rows, names, Effort::Quick).map_err(Failure::Machine)?;
    let mut bytes = MAGIC.to_vec();
    let put = |numbers: &[usize], bytes: &mut Vec<u8>| {
        let four = |&number: &usize| (number as u32).to_le_bytes();
        bytes.extend(numbers.iter().flat_map(four));
    };
    let lengths = [sheet.rows().len(), sheet.names().len(), path.len()];
    put(&[VERSION as usize], &mut bytes);
    put(&lengths, &mut bytes);
    bytes.extend(about.length.to_le_bytes());
    bytes.extend(about.events.to_le_bytes());
    put(&[about.counts.elements, about.counts.types], &mut bytes);
    bytes.extend(about.not_kept.unwrap_or(u32::MAX).to_le_bytes());
    put(&[rows.len(), names.len(), packed.len()], &mut bytes);
    bytes.extend(about.sha256);
    bytes.extend([0; SUM]);
    bytes.extend(path);
    bytes.extend(packed);
    put_sum(&mut bytes, HEADER);
    Ok(bytes)
}

/// Stores a sheet: the file is whole or as it was. A link is followed.
///
/// # Errors
///
/// [`Failure::Machine`].
pub fn store(path: &Path, sheet: &SchemaSheet<'_>, about: &About) -> Result<(), Failure> {
    let linked = std::fs::symlink_metadata(path).is_ok_and(|there| there.is_symlink());
    let target = linked.then(|| std::fs::canonicalize(path).ok()).flatten();
    replace_file(target.as_deref().unwrap_or(path), &encoded(sheet, about)?)
}

/// How a sheet is begun: in the place of the one that is there, and how it is read.
#[derive(Clone, Copy, Debug, PartialEq, Eq)]
pub struct Begin {
    /// Begin anew.
    pub restart: bool,
    /// How a new sheet is read. A stored one keeps its own.
    pub read_as: ReadAs,
}

/// The sheet at `path` to read `source` on, or a new one where there is none or `begin` asks for it.
///
/// # Errors
///
/// [`Failure`] where the stored sheet is refused or is of another source.
pub fn resumed(path: &Path, source: &Source, begin: Begin) -> Result<Stored, Failure> {
    let anew = || Stored {
        sheet: SchemaSheet::cleared(begin.read_as),
        about: About::of(source, begin.read_as),
        converted: false,
    };
    let bytes = match bytes_of_file(path) {
        Ok(bytes) => bytes,
        Err(error) if error.kind() == std::io::ErrorKind::NotFound => return Ok(anew()),
        Err(error) => return Err(Failure::input(path, &error)),
    };
    if begin.restart && (is_stored(&bytes) || bytes.is_empty()) {
        return Ok(anew());
    }
    let stored = of_bytes(path, &bytes)?;
    same_source(path, &stored, source)?;
    keeps_choice(path, &stored, begin.read_as)?;
    Ok(Stored {
        about: About::of(source, stored.sheet.read_as()),
        ..stored
    })
}

/// A stored sheet keeps its choice: `--as-original` can't change one that is read by the standard.
///
/// # Errors
///
/// [`Failure::Refused`].
pub fn keeps_choice(path: &Path, stored: &Stored, read_as: ReadAs) -> Result<(), Failure> {
    if read_as == ReadAs::Standard || stored.sheet.read_as() == ReadAs::Original {
        return Ok(());
    }
    Err(Failure::Refused(format!(
        "{}: the stored sheet is read by the standard and stays so; --as-original is for a new one",
        named(path)
    )))
}

fn same_source(path: &Path, stored: &Stored, source: &Source) -> Result<(), Failure> {
    let about = &stored.about;
    if about.sha256 == source.sha256() && about.length == source.length {
        return Ok(());
    }
    Err(Failure::Refused(format!(
        "{}: the sheet {} was read from other contents; --restart begins it anew",
        named(source.path()),
        named(path)
    )))
}
