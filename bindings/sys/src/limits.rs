//! The version, and the lengths that the library takes.

/// The version of the header and of this crate: 10,000 for the first number, 100 for the second, 1 for the third.
pub const LUBIKSAN_VERSION: u32 = 500;

/// Numbers of one row.
pub const LUBIKSAN_ROW: usize = 10;
/// Numbers in the rows of a sheet, at least.
pub const LUBIKSAN_ROWS_MIN: usize = 20;
/// Numbers in the rows of a sheet, at most.
pub const LUBIKSAN_ROWS_MAX: usize = 40960;
/// Bytes in the names of a sheet, at most.
pub const LUBIKSAN_NAMES_MAX: usize = 65536;
/// Numbers in the scratch of a lowering, at least.
pub const LUBIKSAN_SCRATCH_MIN: usize = 64;
/// Bytes in a text, at most.
pub const LUBIKSAN_TEXT_MAX: usize = 65536;
/// Marks of a tape, at most.
pub const LUBIKSAN_MARKS_MAX: usize = 16384;
/// Attributes of a tag, at most.
pub const LUBIKSAN_ATTRIBUTES_MAX: usize = 32;
/// Tags open at once, at most.
pub const LUBIKSAN_OPEN_TAGS_MAX: u32 = 255;
/// Events of a run, at most.
pub const LUBIKSAN_EVENTS_MAX: u32 = 1000000;
/// Bytes of a pattern, at most.
pub const LUBIKSAN_PATTERN_MAX: usize = 1024;
/// Bytes `(` of a pattern that is judged, at most.
pub const LUBIKSAN_PATTERN_OPENS_MAX: usize = 32;

/// Bytes of stack that `lubiksan_tape` takes, as measured and rounded up to 1,024.
pub const LUBIKSAN_TAPE_STACK: usize = 45056;
/// Bytes of stack that `lubiksan_clear` takes.
pub const LUBIKSAN_CLEAR_STACK: usize = 1024;
/// Bytes of stack that `lubiksan_read` takes.
pub const LUBIKSAN_READ_STACK: usize = 1024;
/// Bytes of stack that `lubiksan_lower` takes.
pub const LUBIKSAN_LOWER_STACK: usize = 1024;
/// Bytes of stack that `lubiksan_reduce` takes.
pub const LUBIKSAN_REDUCE_STACK: usize = 70656;
/// Bytes of stack that `lubiksan_write` takes.
pub const LUBIKSAN_WRITE_STACK: usize = 1024;
/// Bytes of stack that `lubiksan_pattern` takes.
pub const LUBIKSAN_PATTERN_STACK: usize = 2048;
/// Bytes of stack that any other call takes.
pub const LUBIKSAN_OTHER_STACK: usize = 1024;
