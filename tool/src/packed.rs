//! The packed part of stored sheets and stored graphs, by DEFLATE: the rows by column, the lowest bytes of all numbers first,
//! then the next ones, and the names behind them.

use std::io::Write;

use flate2::write::DeflateEncoder;
use flate2::{Compression, Decompress, FlushDecompress, Status};
use lubiksan::columns::{to_columns, to_rows};
use lubiksan::limits;

/// How hard it is tried to pack well, by the levels of DEFLATE's programs: 1 to 9.
#[derive(Clone, Copy, Debug, PartialEq, Eq)]
pub enum Effort {
    /// For what is stored often: level 3.
    Quick,
    /// For what is stored once: level 9.
    Best,
}

impl Effort {
    fn level(self) -> Compression {
        match self {
            Effort::Quick => Compression::new(3),
            Effort::Best => Compression::best(),
        }
    }
}

/// Packs rows of ten numbers, two at least, and names.
///
/// # Errors
///
/// Words, where the rows are no such rows.
pub fn packed(rows: &[u32], names: &[u8], effort: Effort) -> Result<Vec<u8>, String> {
    let mut columns = vec![0; rows.len()];
    to_columns(rows, &mut columns).map_err(|refusal| refusal.to_string())?;
    let plane = |byte: usize| columns.iter().map(move |number| number.to_le_bytes()[byte]);
    let mut bytes: Vec<u8> = (0..4).flat_map(plane).collect();
    bytes.extend(names);
    let mut encoder = DeflateEncoder::new(Vec::new(), effort.level());
    let packed = encoder.write_all(&bytes).and_then(|()| encoder.finish());
    packed.map_err(|error| error.to_string())
}

/// The numbers of the rows and the names again, so many of each; none where exactly these are not what is packed. No more is
/// unpacked than was asked for, and no more than a sheet has.
pub fn unpacked(packed: &[u8], rows: usize, names: usize) -> Option<(Vec<u32>, Vec<u8>)> {
    if rows > limits::ROW_NUMBERS || names > limits::NAMES {
        return None;
    }
    let mut bytes = inflated(packed, 4 * rows + names)?;
    let names = bytes.split_off(4 * rows);
    let number = |at: usize| {
        let byte = |plane: usize| bytes.get(plane * rows + at).copied().unwrap_or_default();
        u32::from_le_bytes([byte(0), byte(1), byte(2), byte(3)])
    };
    let columns: Vec<u32> = (0..rows).map(number).collect();
    let mut restored = vec![0; rows];
    to_rows(&columns, &mut restored).ok()?;
    Some((restored, names))
}

/// What is packed, where it has this length, is whole, and nothing stands behind it.
fn inflated(packed: &[u8], length: usize) -> Option<Vec<u8>> {
    // No more is written than there is room for.
    let mut bytes = Vec::with_capacity(length + 1);
    let mut inflater = Decompress::new(false);
    let ended = inflater.decompress_vec(packed, &mut bytes, FlushDecompress::Finish);
    let whole = matches!(ended, Ok(Status::StreamEnd));
    let all_taken = inflater.total_in() == packed.len() as u64;
    (whole && all_taken && bytes.len() == length).then_some(bytes)
}
