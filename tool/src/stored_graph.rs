//! Stored graphs. The file, all numbers little-endian:
//!
//! | Bytes | |
//! |---|---|
//! | 8 | `lubgraph` |
//! | 4 | version, 1 |
//! | 4 | how the schema was read: 0 as the original, 1 by the standard |
//! | 4, 4, 4, 4 | numbers of rows, bytes of names, bytes of the source's path, bytes of the packed part |
//! | 8, 8, 8 | the source's length in bytes, its events, those that were read |
//! | 4, 4 | its global elements, its named types; of a graph of only what is used, those that the graph has |
//! | 4 | its places that the graph does not keep |
//! | 32 | the source's SHA-256 |
//! | 32 | the SHA-256 of all other bytes of this file |
//! | | the path |
//! | | the used rows and names, packed as [`crate::packed`] says |

use std::ffi::OsStr;
use std::os::unix::ffi::OsStrExt;
use std::path::{Path, PathBuf};

use lubiksan::{limits, Graph, ReadAs};

use crate::failure::{named, Failure};
use crate::losses::Counts;
use crate::packed::{packed, unpacked, Effort};
use crate::stored::{put_sum, sum_of, About, Cursor};

const MAGIC: &[u8; 8] = b"lubgraph";
const VERSION: u32 = 1;
/// The length of the header: the SHA-256 of the file is its last part.
const HEADER: usize = 132;

/// A stored graph.
#[derive(Debug)]
pub struct StoredGraph {
    /// The graph.
    pub graph: Graph<'static>,
    /// What its schema was read from.
    pub about: About,
    /// The events of the source that were read.
    pub done: u64,
    /// How the schema was read.
    pub read_as: ReadAs,
}

/// Do these bytes start as a stored graph does?
pub fn is_stored(bytes: &[u8]) -> bool {
    bytes.starts_with(MAGIC)
}

/// The stored graph of the bytes of a file.
///
/// # Errors
///
/// [`Failure`] in words, with the path before them, where it is cut short, altered, of another version or no graph.
pub fn of_bytes(path: &Path, bytes: &[u8]) -> Result<StoredGraph, Failure> {
    decoded(bytes)
        .map_err(|words| Failure::Refused(format!("{}: the stored graph {words}", named(path))))
}

/// The bytes of a stored graph.
///
/// # Errors
///
/// [`Failure::Machine`] where it can't be packed.
pub fn encoded(
    graph: &Graph<'_>,
    about: &About,
    done: u64,
    read_as: ReadAs,
) -> Result<Vec<u8>, Failure> {
    let packed = packed(graph.rows(), graph.names(), Effort::Best).map_err(Failure::Machine)?;
    let path = about.path.as_os_str().as_bytes();
    let choice = u32::from(read_as == ReadAs::Standard);
    let mut bytes = MAGIC.to_vec();
    let lengths = [
        graph.rows().len(),
        graph.names().len(),
        path.len(),
        packed.len(),
    ];
    let numbers = [VERSION, choice]
        .into_iter()
        .chain(lengths.map(|length| length as u32));
    bytes.extend(numbers.flat_map(u32::to_le_bytes));
    bytes.extend(
        [about.length, about.events, done]
            .map(u64::to_le_bytes)
            .concat(),
    );
    let counts = [about.counts.elements, about.counts.types];
    bytes.extend(counts.map(|count| (count as u32).to_le_bytes()).concat());
    bytes.extend(about.not_kept.unwrap_or(u32::MAX).to_le_bytes());
    bytes.extend(about.sha256);
    bytes.extend([0; 32]);
    bytes.extend(path);
    bytes.extend(packed);
    put_sum(&mut bytes, HEADER);
    Ok(bytes)
}

/// The header behind magic and version; the path is not there yet.
struct Header {
    choice: u32,
    rows: usize,
    names: usize,
    path: usize,
    packed: usize,
    done: u64,
    about: About,
    sum: [u8; 32],
}

impl Header {
    fn of(bytes: &mut Cursor<'_>) -> Option<Header> {
        let choice = bytes.u32()?;
        let [rows, names, path, packed] = [
            bytes.length()?,
            bytes.length()?,
            bytes.length()?,
            bytes.length()?,
        ];
        let [length, events, done] = [bytes.u64()?, bytes.u64()?, bytes.u64()?];
        let counts = Counts {
            elements: bytes.length()?,
            types: bytes.length()?,
        };
        let not_kept = Some(bytes.u32()?).filter(|&count| count != u32::MAX);
        let about = About {
            path: PathBuf::new(),
            length,
            sha256: bytes.sum()?,
            events,
            counts,
            not_kept,
        };
        Some(Header {
            choice,
            rows,
            names,
            path,
            packed,
            done,
            about,
            sum: bytes.sum()?,
        })
    }

    /// The length of the file in bytes.
    fn length(&self) -> usize {
        HEADER + self.path + self.packed
    }

    /// The choice is one of the two, the lengths are those of a graph, and no more events were read than there are.
    fn is_sound(&self) -> bool {
        self.choice <= 1
            && self.rows <= limits::ROW_NUMBERS
            && self.names <= limits::NAMES
            && self.done <= self.about.events
    }
}

fn decoded(bytes: &[u8]) -> Result<StoredGraph, String> {
    let mut cursor = Cursor(bytes);
    let short = || format!("is cut short: it has {} bytes", bytes.len());
    cursor.take(MAGIC.len()).ok_or_else(short)?;
    let version = cursor.u32().ok_or_else(short)?;
    if version != VERSION {
        return Err(format!(
            "has version {version}, only version {VERSION} is read"
        ));
    }
    let header = Header::of(&mut cursor).ok_or_else(short)?;
    if bytes.len() != header.length() {
        let (there, said) = (bytes.len(), header.length());
        return Err(format!(
            "is cut short or altered: it has {there} bytes where its header says {said}"
        ));
    }
    if sum_of(bytes, HEADER) != header.sum || !header.is_sound() {
        return Err("was altered: its SHA-256 is not the one in its header".to_owned());
    }
    let path = cursor.take(header.path).ok_or_else(short)?;
    let path = PathBuf::from(OsStr::from_bytes(path));
    Ok(StoredGraph {
        graph: graph_of(cursor.0, header.rows, header.names)?,
        about: About {
            path,
            ..header.about
        },
        done: header.done,
        read_as: match header.choice {
            0 => ReadAs::Original,
            _ => ReadAs::Standard,
        },
    })
}

/// The graph of the packed part.
fn graph_of(bytes: &[u8], rows: usize, names: usize) -> Result<Graph<'static>, String> {
    let wrong = || "does not hold what its header says".to_owned();
    let (rows, names) = unpacked(bytes, rows, names).ok_or_else(wrong)?;
    Graph::from_buffers(rows, names).map_err(|bad| format!("is no graph: {bad}"))
}
