//! The sizes that the library takes.

use lubiksan_sys as sys;

/// Numbers in the rows of a sheet, at most; a row has ten.
pub const ROW_NUMBERS: usize = sys::LUBIKSAN_ROWS_MAX;
/// Numbers of one row.
pub const ROW: usize = sys::LUBIKSAN_ROW;
/// Rows of a sheet, at most.
pub const ROWS: usize = ROW_NUMBERS / ROW;
/// Bytes in the names of a sheet, at most.
pub const NAMES: usize = sys::LUBIKSAN_NAMES_MAX;
/// Numbers in the scratch of a lowering, at least.
pub const SCRATCH: usize = sys::LUBIKSAN_SCRATCH_MIN;
/// Bytes in the text of a piece, at most.
pub const TEXT: usize = sys::LUBIKSAN_TEXT_MAX;
/// Marks of a piece, at most.
pub const MARKS: usize = sys::LUBIKSAN_MARKS_MAX;
/// Attributes of a tag, at most.
pub const ATTRIBUTES: usize = sys::LUBIKSAN_ATTRIBUTES_MAX;
/// Tags open at once, at most.
pub const OPEN_TAGS: u32 = sys::LUBIKSAN_OPEN_TAGS_MAX;
/// Events of a run, at most.
pub const EVENTS: u32 = sys::LUBIKSAN_EVENTS_MAX;
